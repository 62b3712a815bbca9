//! Times our C entries against the scalar Rust reference, in one run: bench. Prints a table of
//! medians, and what they add up to. Exit status: 0 printed, 1 an answer is different.

mod goals;
mod root;

use ours::passes::Linked;
use std::process::ExitCode;
use timed::scene::{DEPTHS, Scene};
use timed::table::{Line, Plan, Table};
use timed::timing::ROUND;

const ROUNDS: usize = 25;

/// On the largest picture.
const FEW_ROUNDS: usize = 5;

/// The sides of a line.
const RUST: usize = 0;
const OURS: usize = 1;

/// The ratio of our time to the reference's.
fn ratio(line: &Line) -> f64 {
    line.time(OURS) / line.time(RUST)
}

fn print(line: &Line) {
    let (name, (times, spreads), ratio) = (line.name(), line.times(), ratio(line));
    println!("| {name} | {times} | {ratio:.3} | {spreads} |");
}

/// Prints how the times are measured, and the table's heading.
fn heading(scene: &Scene) {
    println!("{scene}");
    println!(
        "times: processor time, medians of {ROUNDS} rounds of at least {} ms ({FEW_ROUNDS} rounds \
         on pictures of 4096 by 4096), ours and the reference in turn, each first in every other \
         round; one thread; spread: half the interquartile range, the reference and ours",
        ROUND * 1e3
    );
    println!();
    println!(
        "| call | picture | bits | blocks | the reference, ns per block | ours, ns per block | ratio | spread |"
    );
    println!("|---|---|---|---|---|---|---|---|");
}

fn main() -> ExitCode {
    let scenes = DEPTHS.map(Scene::new);
    heading(&scenes[0]);
    let table = &mut Table::new(Plan {
        libraries: &[("ours", &Linked)],
        rounds: ROUNDS,
        few_rounds: FEW_ROUNDS,
        wanted: &|_, _| true,
        print,
    });
    timed::lines(table, &scenes);
    let (size, large) = timed::sizes();
    root::line(table, size);
    goals::encoder(&table.lines, size);
    goals::goals(&table.lines, size, large);
    if table.same {
        ExitCode::SUCCESS
    } else {
        eprintln!("bench: an answer is different; the times mean nothing");
        ExitCode::FAILURE
    }
}
