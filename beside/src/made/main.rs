//! Prints, by the reference's answers alone, what the program `test_agreement` of this repository
//! prints: made [--own-map | --unstated]. The pictures are those of the crate `testlib_pictures`.
//! `--own-map` gives the reference its own chroma direction map; with `--unstated` it prints
//! what the program prints of the pictures tried with no damping stated.

mod picture;
mod report;
mod unstated;

use picture::{HEIGHT, VISIBLE, WIDTH};
use reference::{Apply, Frame, Lists, Measure, Try};
use report::Totals;
use std::process::ExitCode;
use support::frame::{Kind, map};

/// The signalled damping that luma is given, and the quality index that gives chroma's.
const DAMPING: u8 = 5;
const QUALITY: u8 = 120;

/// The directions of a picture's blocks, and luma's variances.
type Blocks = (Vec<u8>, Vec<u32>);

fn all() {
    luma(8, 0);
    luma(10, 1);
    chroma((1, 1), 8, 2);
    chroma((1, 0), 10, 3);
    chroma((0, 1), 8, 4);
    chroma((0, 0), 10, 5);
    directions_in_turn((0, 1), 10, 6);
}

fn luma(depth: u8, number: u32) {
    let (snapshot, original) = planes((0, 0), depth, [number, number + 100]);
    let blocks = found(depth, number);
    let f = frame((0, 0), depth, DAMPING, &blocks);
    println!("luma, depth {depth}");
    agree(&f, number, &snapshot, &original, Kind::Luma.rust());
}

/// Directions are of the luma picture with the same number.
fn chroma(layout: (u8, u8), depth: u8, number: u32) {
    println!("chroma {}, depth {depth}", report::layout(layout));
    chroma_of(layout, depth, number, &found(depth, number));
}

/// Each block has the direction after the one before.
fn directions_in_turn(layout: (u8, u8), depth: u8, number: u32) {
    let name = report::layout(layout);
    println!("chroma {name}, each direction in turn, depth {depth}");
    chroma_of(layout, depth, number, &in_turn());
}

/// Each of the eight directions in turn; no variances.
fn in_turn() -> Blocks {
    let turn = (0..picture::BLOCKS).map(|b| (b % 8) as u8).collect();
    (turn, Vec::new())
}

fn chroma_of((sx, sy): (u8, u8), depth: u8, number: u32, blocks: &Blocks) {
    let (snapshot, original) = planes((sx, sy), depth, [number + 200, number + 300]);
    let f = frame((sx, sy), depth, reference::cdef_damping(QUALITY), blocks);
    let functions = Kind::Chroma { sx, sy }.rust();
    agree(&f, number, &snapshot, &original, functions);
}

/// Directions and variances of the luma picture.
fn found(depth: u8, number: u32) -> Blocks {
    let luma = picture::made(WIDTH, HEIGHT, depth, number);
    reference::direction_pass(&luma, WIDTH, HEIGHT, depth)
}

/// Snapshot and original, by their seeds.
fn planes((sx, sy): (u8, u8), depth: u8, seeds: [u32; 2]) -> (Vec<u16>, Vec<u16>) {
    let made = |seed| picture::made(WIDTH >> sx, HEIGHT >> sy, depth, seed);
    (made(seeds[0]), made(seeds[1]))
}

fn frame((sx, sy): (u8, u8), depth: u8, damping: u8, (dirs, vars): &Blocks) -> Frame {
    let (sub_x, sub_y) = (sx.into(), sy.into());
    Frame {
        width: WIDTH,
        height: HEIGHT,
        visible_width: VISIBLE.0,
        visible_height: VISIBLE.1,
        sub_x,
        sub_y,
        depth,
        signalled_damping: damping,
        chroma_map: map::chroma_map(sub_x, sub_y),
        lists: Lists::new(&picture::skips(), dirs, vars),
    }
}

/// A line per unit, and whether all agree.
fn agree(
    f: &Frame,
    number: u32,
    snapshot: &[u16],
    original: &[u16],
    functions: (Try, Measure, Apply),
) {
    told(lines(f, number, snapshot, original, functions));
}

fn told(agreed: bool) {
    println!("{}", if agreed { "all agree" } else { "different" });
}

/// Tries, applies the units' pairs to a copy of the snapshot, measures the result with pair
/// 0, 0, and prints the totals; whether they agree.
fn lines(
    f: &Frame,
    number: u32,
    snapshot: &[u16],
    original: &[u16],
    (try_all, measure, apply): (Try, Measure, Apply),
) -> bool {
    let trials = picture::trials(f.units(), number);
    let pairs: Vec<(u8, u8)> = trials.iter().map(|&t| picture::pair(t)).collect();
    let tried = try_all(f, snapshot, original);
    let mut applied = snapshot.to_vec();
    apply(f, &mut applied, snapshot, &pairs);
    let measured = measure(f, &applied, original, 0, 0);
    let mut agreed = true;
    for (unit, trial) in trials.into_iter().enumerate() {
        let totals = Totals {
            tried: tried[unit],
            measured: measured[unit],
        };
        agreed &= totals.print(unit, trial, pairs[unit]);
    }
    agreed
}

fn main() -> ExitCode {
    let words: Vec<String> = std::env::args().skip(1).collect();
    match words.iter().map(String::as_str).collect::<Vec<_>>()[..] {
        [] => all(),
        ["--own-map"] => {
            map::use_own();
            all();
        }
        ["--unstated"] => unstated::all(),
        _ => {
            eprintln!("made [--own-map | --unstated]");
            return ExitCode::from(2);
        }
    }
    ExitCode::SUCCESS
}
