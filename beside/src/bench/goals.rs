//! What the lines add up to: a picture's cost for an encoder, and the goals.

use crate::{OURS, RUST, ratio};
use support::frame::Size;
use timed::encoder;
use timed::scene::DEPTHS;
use timed::table::{Line, Lines};

/// The largest allowed ratio of our time to the reference's: goals, then the earlier limits.
const GOALS: [(&str, &str, f64); 21] = [
    ("goal", "direction", 0.5),
    ("goal", "filter (4, 2), inside", 0.037),
    ("goal", "filter (4, 0), inside", 0.074),
    ("goal", "filter (0, 2), inside", 0.06),
    ("goal", "trial luma", 0.048),
    ("goal", "trial chroma", 0.08),
    ("goal", "try luma", 0.069),
    ("goal", "try chroma", 0.067),
    ("goal", "apply (4, 2) luma", 0.08),
    ("goal", "measure (0, 0) luma", 0.6),
    ("goal", "distance", 0.55),
    ("limit", "direction", 0.6),
    ("limit", "filter (4, 2), inside", 0.10),
    ("limit", "filter (4, 0), inside", 0.12),
    ("limit", "filter (0, 2), inside", 0.12),
    ("limit", "filter (0, 0), inside", 0.5),
    ("limit", "trial luma", 0.15),
    ("limit", "try luma", 0.25),
    ("limit", "apply (4, 2) luma", 0.12),
    ("limit", "direction pass", 0.7),
    ("limit", "measure (0, 0) luma", 1.5),
];

/// How much longer ours may take per block of the largest picture.
const GROWTH: f64 = 1.2;
const GROWN: [&str; 4] = [
    "try luma",
    "apply (4, 2) luma",
    "direction pass",
    "measure (0, 0) luma",
];

/// Prints what a picture of that size costs, at each depth.
pub fn encoder(lines: &Lines, size: Size) {
    println!();
    println!("{}", encoder::heading(size));
    println!();
    println!("| bits | the reference, ms | ours, ms | ratio |");
    println!("|---|---|---|---|");
    for depth in DEPTHS {
        let size = Size { depth, ..size };
        let cost = |side| encoder::cost(lines, size, side).expect("every call was timed");
        let (rust, ours) = (cost(RUST), cost(OURS));
        println!("| {depth} | {rust:.2} | {ours:.2} | {:.3} |", ours / rust);
    }
}

/// A line that was printed.
fn line<'a>(lines: &'a Lines, call: &str, size: Size) -> &'a Line {
    let found = lines.line(call, size);
    found.unwrap_or_else(|| panic!("no line {call}, {size}"))
}

/// Prints the goals and limits at each depth, and the growth at the first.
pub fn goals(lines: &Lines, size: Size, large: Size) {
    let of_depths = DEPTHS.map(|depth| format!("ratio, {depth} bits | "));
    println!();
    println!("| | call | at most | {} |", of_depths.join(" | "));
    println!("|---|---|---|---|---|---|---|");
    for (kind, call, most) in GOALS {
        let of = |depth| ratio(line(lines, call, Size { depth, ..size }));
        let cells = DEPTHS.map(|depth| cell(of(depth), most));
        println!("| {kind} | {call} | {most:.2} | {} |", cells.join(" | "));
    }
    for call in GROWN {
        let time = |size| line(lines, call, size).time(OURS);
        let grown = time(large) / time(size);
        let (from, to) = (size.width, large.width);
        println!(
            "| growth | {call}, {from} to {to} wide | {GROWTH:.2} | {} | | |",
            cell(grown, GROWTH)
        );
    }
}

/// A ratio, and whether it is small enough.
fn cell(ratio: f64, most: f64) -> String {
    let word = if ratio <= most { "met" } else { "missed" };
    format!("{ratio:.3} | {word}")
}
