//! Trial: blocks of random planes by luma's and by chroma's rules, and rejected calls.

use crate::drawn::{BLOCKS, any_plane, each_plane};
use crate::seen::{BlockSeen, Seen};
use support::random::Random;
use support::report::{Report, Tally};
use support::trial::Trial;

/// The rules of a trial: 1 luma, 0 chroma. Each has half of the blocks of a plane.
struct Way(u8);

pub fn compare(report: &mut Report, long: bool, seed: u64) {
    let (rounds, refused) = if long { (58, 12) } else { (1, 1) };
    for (way, call, refusals) in [
        (Way(1), "trial_luma", "trial_luma_refusals"),
        (Way(0), "trial_chroma", "trial_chroma_refusals"),
    ] {
        report.call(call, |tally| way.trial(tally, rounds, seed));
        report.call(refusals, |tally| way.refusals(tally, refused, seed));
    }
}

impl Way {
    fn trial(&self, tally: &mut Tally, rounds: usize, seed: u64) {
        let mut blocks = BlockSeen::new();
        let mut sizes = Seen::new("sizes of variance", 15);
        let mut altered = 0;
        for c in Trial::edges() {
            self.case(tally, c);
        }
        each_plane(&mut Random::new(seed), rounds, |r, plane, count| {
            let plane = plane.marked(r);
            let kept = plane.samples.clone();
            for _ in 0..count / 2 {
                let c = Trial::on_list(&plane, self.0, r);
                let answer = ours::trial(&c);
                if answer.number == 0 {
                    blocks.see(&c.block);
                    sizes.see(size_of(c.variance));
                }
                tally.case(&c, answer);
            }
            altered += i64::from(plane.samples != kept);
        });
        tally.number("planes altered", altered, 0);
        blocks.check(tally);
        sizes.check(tally);
    }

    fn refusals(&self, tally: &mut Tally, rounds: usize, seed: u64) {
        for (_, c) in Trial::stated() {
            self.case(tally, c);
        }
        any_plane(&mut Random::new(seed), rounds, |r, plane| {
            let plane = plane.marked(r);
            for _ in 0..BLOCKS / 2 {
                let c = Trial::any(&plane, self.0, r);
                tally.case(&c, ours::trial(&c));
            }
        });
    }

    /// A case by either rules, changed to these.
    fn case(&self, tally: &mut Tally, c: Trial) {
        let c = Trial { luma: self.0, ..c };
        tally.case(&c, ours::trial(&c));
    }
}

/// 0 for no variance, then a number for each size of it.
fn size_of(variance: u32) -> usize {
    match variance {
        0 => 0,
        v => 1 + (v >> 6).checked_ilog2().unwrap_or(0) as usize,
    }
}
