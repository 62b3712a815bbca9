//! The leaves: every case where that is possible, and rejected calls.

use support::STRENGTH_MAX;
use support::adjust_pri::{AdjustPri, VARIANCE_MAX};
use support::constrain::{Constrain, DAMPING_MAX, DIFFERENCE_MAX};
use support::damping::{Damping, INDEX_MAX};
use support::log2_floor::Log2Floor;
use support::random::Random;
use support::report::Report;
use support::working_damping::WorkingDamping;

/// What `out` holds before a call: no call's result, so that an unwritten one shows.
const HELD_I32: i32 = i32::MIN;
const HELD_U32: u32 = u32::MAX;
const HELD_U8: u8 = u8::MAX;

pub fn compare(report: &mut Report, long: bool, seed: u64) {
    let r = || Random::new(seed);
    constrain(report, long);
    constrain_refusals(report, long, &mut r());
    adjust_pri(report, long, &mut r());
    adjust_pri_refusals(report, long, &mut r());
    damping(report);
    damping_refusals(report);
    working_damping(report, "luma_damping", false);
    working_damping(report, "chroma_damping", true);
    log2_floor(report, long, &mut r());
}

/// Every difference and damping; every strength, or those at the ends and a spread.
fn constrain(report: &mut Report, long: bool) {
    let ends = [0, 1, 2, 3, 4, 7, 8, 15, 16, 63, 64, STRENGTH_MAX];
    report.call("constrain", |tally| {
        for strength in 0..=STRENGTH_MAX {
            if !long && strength % 29 != 0 && !ends.contains(&strength) {
                continue;
            }
            for damping in 0..=DAMPING_MAX {
                for difference in -DIFFERENCE_MAX..=DIFFERENCE_MAX {
                    let c = Constrain::new(difference, strength, damping);
                    tally.case(&c, ours::constrain(&c, HELD_I32));
                }
            }
        }
    });
}

/// Rejected cases, and any, with two numbers held in `out`.
fn constrain_refusals(report: &mut Report, long: bool, r: &mut Random) {
    let count = if long { 10_000_000 } else { 200_000 };
    report.call("constrain_refusals", |tally| {
        let any = (0..count).map(|_| Constrain::any(r));
        for c in Constrain::refused().into_iter().chain(any) {
            for held in [HELD_I32, 12_345] {
                tally.case(&c, ours::constrain(&c, held));
            }
        }
    });
}

/// Every strength; every variance, or those at the steps, a spread and random ones.
fn adjust_pri(report: &mut Report, long: bool, r: &mut Random) {
    let variances: Vec<u32> = if long {
        (0..=VARIANCE_MAX).collect()
    } else {
        let spread = (0..=VARIANCE_MAX).step_by(997);
        let random = (0..1000).map(|_| AdjustPri::random(r).variance);
        let edges = AdjustPri::variances().into_iter();
        edges.chain(spread).chain(random).collect()
    };
    report.call("adjust_pri", |tally| {
        for strength in 0..=STRENGTH_MAX {
            for &variance in &variances {
                let c = AdjustPri::new(strength, variance);
                tally.case(&c, ours::adjust_pri(&c, HELD_U32));
            }
        }
    });
}

fn adjust_pri_refusals(report: &mut Report, long: bool, r: &mut Random) {
    let count = if long { 10_000_000 } else { 200_000 };
    report.call("adjust_pri_refusals", |tally| {
        let any = (0..count).map(|_| AdjustPri::any(r));
        for c in AdjustPri::refused().into_iter().chain(any) {
            for held in [HELD_U32, 12_345] {
                tally.case(&c, ours::adjust_pri(&c, held));
            }
        }
    });
}

fn damping(report: &mut Report) {
    report.call("damping", |tally| {
        for index in 0..=INDEX_MAX {
            let c = Damping(index);
            tally.case(&c, ours::damping(&c, HELD_U8));
        }
    });
}

fn damping_refusals(report: &mut Report) {
    report.call("damping_refusals", |tally| {
        let more = (INDEX_MAX + 1..70_000).map(Damping);
        for c in Damping::refused().into_iter().chain(more) {
            for held in [HELD_U8, 77] {
                tally.case(&c, ours::damping(&c, held));
            }
        }
    });
}

/// Every signalled damping and every depth, with two numbers held in `out` in turn.
fn working_damping(report: &mut Report, call: &'static str, chroma: bool) {
    report.call(call, |tally| {
        for c in WorkingDamping::all(chroma) {
            let held = if (c.signalled ^ c.depth) & 1 == 0 {
                HELD_U8
            } else {
                77
            };
            tally.case(&c, ours::working_damping(&c, held));
        }
    });
}

fn log2_floor(report: &mut Report, long: bool, r: &mut Random) {
    let (every, count) = if long {
        (1 << 24, 20_000_000)
    } else {
        (1 << 17, 500_000)
    };
    report.call("log2_floor", |tally| {
        let random = (0..count).map(|_| Log2Floor::random(r));
        let all = (0..=every).map(Log2Floor);
        for c in Log2Floor::edges().into_iter().chain(all).chain(random) {
            tally.case(&c, ours::log2_floor(&c));
        }
    });
}
