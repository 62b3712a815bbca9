//! Compares ours with the unchanged Rust reference, call by call.

mod blocks;
mod distance;
mod drawn;
mod frame;
mod leaves;
mod seen;
mod trial;

use std::process::ExitCode;
use support::counts::Floors;

/// The least that a long run compares.
const LONG_FLOORS: Floors = Floors {
    samples: 1_000_000_000,
    by_map: 1_000_000,
};

fn main() -> ExitCode {
    support::options::run("compare", LONG_FLOORS, |report, long, seed| {
        leaves::compare(report, long, seed);
        blocks::compare(report, long, seed);
        trial::compare(report, long, seed);
        distance::compare(report, long, seed);
        frame::compare(report, long, seed);
    })
}
