//! What is printed of the lines: a table of medians, what they add up to, and how they grow with
//! the picture.

use crate::options::{GROWN, Options};
use support::frame::Size;
use timed::encoder;
use timed::scene::{DEPTHS, Scene};
use timed::table::{Line, Lines};
use timed::timing::{Median, ROUND};

/// The sides of a line.
const RUST: usize = 0;
const BEFORE: usize = 1;
const OURS: usize = 2;

/// A ratio and its spread, as cells.
fn cells(Median { value, spread }: Median) -> String {
    format!("{value:.3} | {spread:.1} %")
}

fn row(line: &Line) {
    let (name, (times, spreads)) = (line.name(), line.times());
    let by_before = cells(by_before(line));
    let by_rust = cells(line.sides[OURS].ratio(&line.sides[RUST]));
    println!("| {name} | {times} | {spreads} | {by_before} | {by_rust} |");
}

/// Prints how the times are measured, and the table's heading.
fn heading(options: &Options) {
    println!("{}", Scene::new(DEPTHS[0]));
    println!(
        "times: processor time, medians of {} launches of {} rounds of at least {} ms (of one \
         round on pictures of 4096 by 4096), the three in turn, each round beginning with the \
         next; one thread; ratios: medians of the rounds' ratios; spread: half the interquartile \
         range, the reference, before and ours",
        options.launches,
        options.rounds,
        ROUND * 1e3
    );
    println!();
    println!(
        "| call | picture | bits | blocks | the reference, ns per block | before, ns per block | \
         ours, ns per block | spreads | ours / before | spread | ours / the reference | spread |"
    );
    println!("|---|---|---|---|---|---|---|---|---|---|---|---|");
}

/// Prints what a picture costs an encoder, at each depth, where all of it was timed.
fn encoder_table(lines: &Lines, size: Size) {
    let costs = DEPTHS
        .iter()
        .filter_map(|&depth| encoder_row(lines, Size { depth, ..size }));
    let costs: Vec<String> = costs.collect();
    if costs.is_empty() {
        return;
    }
    println!();
    println!("{}", encoder::heading(size));
    println!();
    println!(
        "| bits | the reference, ms | before, ms | ours, ms | ours / before | spread | \
         ours / the reference | spread |"
    );
    println!("|---|---|---|---|---|---|---|---|");
    costs.iter().for_each(|row| println!("{row}"));
}

fn encoder_row(lines: &Lines, size: Size) -> Option<String> {
    let cost = |side| encoder::cost(lines, size, side);
    let (rust, before, ours) = (cost(RUST)?, cost(BEFORE)?, cost(OURS)?);
    let rounds = |side| encoder::rounds(lines, size, side);
    let by_before = cells(rounds(OURS)?.ratio(&rounds(BEFORE)?));
    let by_rust = cells(rounds(OURS)?.ratio(&rounds(RUST)?));
    let depth = size.depth;
    Some(format!(
        "| {depth} | {rust:.2} | {before:.2} | {ours:.2} | {by_before} | {by_rust} |"
    ))
}

/// The ratio of our time to that of the library before.
fn by_before(line: &Line) -> Median {
    line.sides[OURS].ratio(&line.sides[BEFORE])
}

/// Prints the ratio of the time per block on the largest picture to that on the scene: the
/// quotient of the medians, and for ours / before that of the rounds' ratios.
fn growth_table(lines: &Lines, size: Size, large: Size) {
    let timed = |call| Some((call, lines.line(call, size)?, lines.line(call, large)?));
    let grown: Vec<_> = GROWN.into_iter().filter_map(timed).collect();
    if grown.is_empty() {
        return;
    }
    println!();
    println!("Growth of the time per block from {size}, to {large}:");
    println!();
    println!("| call | the reference | before | ours | ours / before |");
    println!("|---|---|---|---|---|");
    for (call, small, large) in grown {
        let cells = [RUST, BEFORE, OURS].map(|side| large.time(side) / small.time(side));
        let cells = cells.map(|growth| format!("{growth:.3}")).join(" | ");
        let by_before = by_before(large).value / by_before(small).value;
        println!("| {call} | {cells} | {by_before:.3} |");
    }
}

/// Prints all that was timed.
pub fn print(options: &Options, lines: &Lines) {
    heading(options);
    lines.all().iter().for_each(row);
    let (size, large) = timed::sizes();
    encoder_table(lines, size);
    growth_table(lines, size, large);
}
