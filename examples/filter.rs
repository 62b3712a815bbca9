//! Tries, applies and measures one unit of a synthetic luma picture: an edge, and the same
//! with noise. filter.c does the same and prints the same.

#[allow(dead_code)] // The entries for chroma are declared there too.
#[path = "../beside/src/ours/frame/entries.rs"]
mod entries;

use entries::*;
use std::process::ExitCode;

const SIDE: usize = 64;
const SAMPLES: usize = SIDE * SIDE;
const BLOCKS: usize = SAMPLES / 64;
const DEPTH: u8 = 8;
const PRIMARIES: [u8; 4] = [0, 1, 2, 4];
/// The signalled damping, and unstated = 0: it is stated.
const DAMPING: (u8, u8) = (5, 0);

/// A plane, its original, and the flags, directions and variances of its blocks.
struct Picture {
    original: Vec<u16>,
    snapshot: Vec<u16>,
    skip: [u8; BLOCKS],
    dirs: [u8; BLOCKS],
    vars: [u32; BLOCKS],
}

/// The original is a slanted edge; the snapshot is the same with noise.
fn picture() -> Picture {
    let mut state = 1u32;
    let (mut original, mut snapshot) = (Vec::new(), Vec::new());
    for i in 0..SAMPLES {
        let (x, y) = (i % SIDE, i / SIDE);
        state = state.wrapping_mul(1_664_525).wrapping_add(1_013_904_223);
        let sample = if 2 * x + y > 90 { 170 } else { 80 };
        original.push(sample);
        snapshot.push(sample + ((state >> 24) % 7) as u16 - 3);
    }
    Picture {
        original,
        snapshot,
        skip: [0; BLOCKS],
        dirs: [0; BLOCKS],
        vars: [0; BLOCKS],
    }
}

/// Calls a C entry, passing each slice as its address and its length.
macro_rules! entry {
    ($name:ident: $($out:expr),*; $($list:expr),*; $($n:expr),*; $($later:expr),*; $($m:expr),*) => {
        // SAFETY: the slices have the lengths given, and what is written overlaps nothing else.
        unsafe {
            $name($($out.as_mut_ptr(), $out.len(),)* $($list.as_ptr(), $list.len(),)* $($n,)*
                $($later.as_ptr(), $later.len(),)* $($m,)*)
        }
    };
}

fn find_directions(p: &mut Picture) -> u32 {
    entry!(quern_direction_pass: p.dirs, p.vars; p.snapshot; SIDE, SIDE, DEPTH;;)
}

fn try_pairs(tried: &mut [i64; 12], p: &Picture) -> u32 {
    entry!(quern_try_luma: tried; p.snapshot, p.original;
        SIDE, SIDE, SIDE, SIDE, DEPTH; p.skip, p.dirs, p.vars;
        DAMPING.0, DAMPING.1)
}

/// Taps read the snapshot; the result is written into a copy of it.
fn apply(filtered: &mut [u16], p: &Picture, primary: u8, secondary: u8) -> u32 {
    let (pris, secs) = ([primary], [secondary]);
    entry!(quern_apply_luma: filtered; p.snapshot;
        SIDE, SIDE, DEPTH; p.skip, p.dirs, p.vars, pris, secs;
        DAMPING.0, DAMPING.1)
}

/// With the pair 0, 0: the filtered plane as it stands.
fn measure(measured: &mut [i64; 1], filtered: &[u16], p: &Picture) -> u32 {
    let mut scratch = [0; SIDE * 8];
    entry!(quern_measure_luma: measured, scratch; filtered, p.original;
        SIDE, SIDE, SIDE, SIDE, DEPTH; p.skip, p.dirs, p.vars;
        0, 0, DAMPING.0, DAMPING.1)
}

/// An error code as a message.
fn done(call: &str, number: u32) -> Result<(), String> {
    match number {
        0 => Ok(()),
        _ => Err(format!("{call}: error code {number}")),
    }
}

/// Whether the measured total is the tried one.
fn run() -> Result<bool, String> {
    let (mut p, mut tried, mut measured) = (picture(), [0; 12], [0]);
    done("direction pass", find_directions(&mut p))?;
    done("trying", try_pairs(&mut tried, &p))?;
    for (t, total) in tried.iter().enumerate() {
        println!("pair {}, {}: total {total}", PRIMARIES[t % 4], t / 4);
    }
    let least = (0..12).min_by_key(|&t| tried[t]).unwrap_or(0);
    let (primary, secondary) = (PRIMARIES[least % 4], (least / 4) as u8);
    let mut filtered = p.snapshot.clone();
    done("applying", apply(&mut filtered, &p, primary, secondary))?;
    done("measuring", measure(&mut measured, &filtered, &p))?;
    let agree = measured[0] == tried[least];
    let verdict = if agree { "as tried" } else { "NOT as tried" };
    println!("least: pair {primary}, {secondary}");
    println!("measured: {}, {verdict}", measured[0]);
    Ok(agree)
}

fn main() -> ExitCode {
    let agree = run().unwrap_or_else(|refusal| {
        println!("{refusal}");
        false
    });
    ExitCode::from(u8::from(!agree))
}
