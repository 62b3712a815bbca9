//! Runs the unchanged Rust reference alone: RULES, Worked lines, its helper functions, the
//! last clamp, the chroma direction maps, and the agreement of the frame functions; and checks
//! the harness's validation against the stated error codes, and its built blocks against what
//! they are built for.

mod agreement;
mod bodies;
mod built;
mod chroma_map;
mod last_clamp;
mod questions;
mod whole;
mod worked_lines;

use std::process::ExitCode;
use support::counts::Floors;
use support::random::Random;

fn main() -> ExitCode {
    support::options::run("self_test", Floors::default(), |report, long, seed| {
        let r = || Random::new(seed);
        report.call("worked_lines", worked_lines::check);
        report.call("questions", questions::check);
        report.call("bodies", |tally| bodies::check(tally, &mut r()));
        report.call("last_clamp", |t| last_clamp::check(t, &mut r(), long));
        report.call("built", |tally| built::check(tally, &mut r(), long));
        report.call("chroma_map", chroma_map::check);
        report.call("agreement", |t| agreement::check(t, &mut r(), long));
        report.call("repeated_lines", |t| whole::check(t, &mut r(), long));
    })
}
