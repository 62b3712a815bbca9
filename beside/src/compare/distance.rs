//! The distances: blocks of two random planes, blocks built to show how the steps are
//! rounded, and rejected calls.

use crate::drawn::{BLOCKS, any_plane, each_plane, size_number};
use crate::seen::Seen;
use support::built::Built;
use support::distance::Distance;
use support::planes::SMALL;
use support::random::Random;
use support::report::{Report, Tally};

/// What `out` holds before a call: no distance.
const HELD: i64 = -1;

/// Pairs of a round that are built to show how the steps are rounded.
const BUILT: usize = 1_000;

/// Whole blocks of a round at least: more than 10 million in a long run.
const WHOLE: usize = 77_000;

pub fn compare(report: &mut Report, long: bool, seed: u64) {
    for (weighted, rounds, call, refused) in [
        (true, 130, "distance", "distance_refusals"),
        (false, 60, "squares", "squares_refusals"),
    ] {
        let (rounds, any) = if long { (rounds, 30) } else { (1, 1) };
        report.call(call, |tally| distance(tally, weighted, rounds, seed));
        report.call(refused, |tally| refusals(tally, weighted, any, seed));
    }
}

fn distance(tally: &mut Tally, weighted: bool, rounds: usize, seed: u64) {
    let r = &mut Random::new(seed);
    let mut sizes = Seen::new("plane sizes", SMALL * SMALL);
    let (mut altered, mut whole) = (0, 0);
    for c in Distance::edges(weighted) {
        tally.case(&c, ours::distance(&c, HELD));
    }
    if weighted {
        for k in 0..rounds * BUILT {
            let built = match k % 40 {
                0 => Built::under_top(r),
                _ => Built::loud(r),
            };
            let c = Distance::built(&built);
            tally.case(&c, ours::distance(&c, HELD));
        }
    }
    each_plane(r, rounds, |r, plane, blocks| {
        let other = plane.other(r);
        let kept = (plane.samples.clone(), other.clone());
        for _ in 0..blocks {
            let c = Distance::on(&plane, &other, weighted, r);
            let answer = ours::distance(&c, HELD);
            if answer.number == 0 {
                sizes.see(size_number(&c.spot));
                whole += usize::from(c.is_whole());
            }
            tally.case(&c, answer);
        }
        altered += i64::from((&plane.samples, &other) != (&kept.0, &kept.1));
    });
    tally.number("planes altered", altered, 0);
    sizes.check(tally);
    let enough = whole >= rounds * WHOLE;
    tally.number("whole blocks", i64::from(enough), 1);
}

/// Cases that fail each check, and any, with two numbers held in `out`.
fn refusals(tally: &mut Tally, weighted: bool, rounds: usize, seed: u64) {
    let both = |tally: &mut Tally, c: &Distance| {
        for held in [HELD, 12_345] {
            tally.case(c, ours::distance(c, held));
        }
    };
    for (_, c) in Distance::stated(weighted) {
        both(tally, &c);
    }
    any_plane(&mut Random::new(seed), rounds, |r, plane| {
        let other = plane.other(r);
        for _ in 0..BLOCKS {
            both(tally, &Distance::any(&plane, &other, weighted, r));
        }
    });
}
