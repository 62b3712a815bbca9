//! The calls on whole pictures: random pictures in luma and in every layout of chroma,
//! rejected calls, and the agreement theorem (RULES, Agreement).

mod demand3;
mod seen;

use ours::frame as ours;
use seen::PictureSeen;
use support::Answer;
use support::frame::drawn::{CYCLE, Drawn};
use support::frame::stated::{self, FrameCase};
use support::frame::{CHROMA, Kind, LUMA};
use support::planes::SIDE_MAX;
use support::random::Random;
use support::report::{Report, Tally};

/// Pictures at the limits of a side, in every run; and in a long one.
const LONGEST: [(usize, usize); 2] = [(SIDE_MAX, 16), (24, SIDE_MAX)];
const LARGEST: [(usize, usize); 5] = [
    (SIDE_MAX, 72),
    (72, SIDE_MAX),
    (SIDE_MAX, 8),
    (8, SIDE_MAX),
    (SIDE_MAX, SIDE_MAX),
];

#[derive(Clone, Copy)]
struct Run {
    long: bool,
    seed: u64,
}

pub fn compare(report: &mut Report, long: bool, seed: u64) {
    let run = Run { long, seed };
    let names = ["direction_pass", "direction_pass_refusals"];
    run.call(report, names, &LUMA, ours::direction_pass);
    let names = ["try_luma", "try_luma_refusals"];
    let chroma = ["try_chroma", "try_chroma_refusals"];
    run.both(report, names, chroma, ours::trying);
    let names = ["measure_luma", "measure_luma_refusals"];
    let chroma = ["measure_chroma", "measure_chroma_refusals"];
    run.both(report, names, chroma, ours::measuring);
    let names = ["apply_luma", "apply_luma_refusals"];
    let chroma = ["apply_chroma", "apply_chroma_refusals"];
    run.both(report, names, chroma, ours::applying);
    for (call, kinds) in [("demand3_luma", &LUMA[..]), ("demand3_chroma", &CHROMA)] {
        report.call(call, |tally| {
            let mut ways = demand3::ways();
            run.each_picture(|d| {
                for &kind in kinds {
                    demand3::picture(tally, &mut ways, d, kind);
                }
            });
            ways.check(tally);
        });
    }
}

impl Run {
    /// 252 or one times the number of pictures after which each depth has met each pair: more
    /// than 80,000 in a long run.
    fn rounds(self) -> usize {
        if self.long { 252 } else { 1 }
    }

    /// The same pictures for every call.
    fn each_picture(self, mut work: impl FnMut(&Drawn)) {
        let count = self.rounds() * CYCLE;
        for number in 0..count {
            work(&Drawn::numbered(number, self.seed));
        }
        let larger = if self.long { &LARGEST[..] } else { &[] };
        for (k, &sides) in LONGEST.iter().chain(larger).enumerate() {
            let seed = self.seed.wrapping_add(k as u64);
            work(&Drawn::of_sides(count + k, sides, seed).whole());
        }
    }

    /// A call in luma and in chroma.
    fn both<C: FrameCase>(
        self,
        report: &mut Report,
        luma: [&'static str; 2],
        chroma: [&'static str; 2],
        ours: fn(&C) -> Answer<C::Value>,
    ) {
        self.call(report, luma, &LUMA, ours);
        self.call(report, chroma, &CHROMA, ours);
    }

    /// A call and its rejected calls, by the names of both.
    fn call<C: FrameCase>(
        self,
        report: &mut Report,
        [call, refused]: [&'static str; 2],
        kinds: &[Kind],
        ours: fn(&C) -> Answer<C::Value>,
    ) {
        report.call(call, |tally| {
            let mut seen = PictureSeen::new(kinds.len());
            if kinds == LUMA {
                for c in C::edges(&mut Random::new(self.seed)) {
                    tally.case(&c, ours(&c));
                }
            }
            self.each_picture(|d| {
                for (k, &kind) in kinds.iter().enumerate() {
                    let c = C::drawn(d, kind);
                    let answer = ours(&c);
                    seen.see(&c, k, answer.number);
                    let due = c.expected();
                    if due.number == 0 {
                        tally.count(c.by_other_map(&due.value));
                    }
                    tally.against(&c, answer, due);
                }
            });
            seen.check(tally);
        });
        report.call(refused, |tally| self.refusals(tally, kinds, ours));
    }

    /// Cases that fail each check, and any.
    fn refusals<C: FrameCase>(
        self,
        tally: &mut Tally,
        kinds: &[Kind],
        ours: fn(&C) -> Answer<C::Value>,
    ) {
        for (_, c) in stated::stated::<C>(kinds) {
            tally.case(&c, ours(&c));
        }
        let breaks: Vec<_> = kinds.iter().map(|&kind| C::breaks(kind)).collect();
        let r = &mut Random::new(self.seed);
        for number in 0..if self.long { 200_000 } else { 2_000 } {
            let k = number % kinds.len();
            let c = stated::any(r, number, kinds[k], &breaks[k]);
            tally.case(&c, ours(&c));
        }
    }
}
