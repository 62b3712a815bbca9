//! RULES, Worked lines, run through the reference.

use crate::last_clamp::Mirror;
use reference::{Frame, Lists, MARK};
use support::frame::map;
use support::report::Tally;

pub fn check(tally: &mut Tally) {
    leaves(tally);
    rounding(tally);
    direction(tally);
    filter(tally);
    chroma(tally);
    distance(tally);
}

fn leaves(tally: &mut Tally) {
    for (difference, strength, damping, result) in [
        (3, 4, 3, 3),
        (-5, 4, 3, -2),
        (7, 4, 3, 1),
        (8, 4, 3, 0),
        (63, 1, 6, 1),
        (64, 1, 6, 0),
    ] {
        let got = reference::constrain_spec(difference, strength, damping);
        tally.number("constrain", got, result);
    }
    for (strength, variance, result) in [(1, 1023, 0), (1, 1024, 1), (4, 63, 1), (4, 860_160, 4)] {
        let got = reference::adjust_pri(strength, variance);
        tally.number("adjust", got, result);
    }
    for (index, result) in [(63, 3), (64, 4), (192, 6)] {
        tally.number("damping", reference::cdef_damping(index), result);
    }
}

/// The filtered sample at (x, y), by a block of 1 by 1.
#[allow(clippy::too_many_arguments)]
fn filtered(
    plane: &[u16],
    width: usize,
    x: usize,
    y: usize,
    pri: u32,
    sec: u32,
    direction: u8,
    damping: u8,
) -> i64 {
    let mut dst = plane.to_vec();
    reference::cdef_filter_block(
        &mut dst, 0, plane, width, x, y, 1, 1, pri, sec, direction, damping, 8,
    );
    dst[y * width + x].into()
}

/// A row of marks except for the centre and two taps, so that the sum is known.
fn rounding(tally: &mut Tally) {
    // Along direction 2 the near primary tap weighs 4; with direction 0 the same
    // positions are secondary taps that weigh 2 and 1.
    for (near, far, pri, sec, direction, result) in [
        (103, 101, 0, 4, 0, 100),  // sum 7
        (102, MARK, 4, 0, 2, 101), // sum 8
        (97, 99, 0, 4, 0, 100),    // sum -7
        (98, MARK, 4, 0, 2, 99),   // sum -8
    ] {
        let row = [MARK, MARK, 100, near, far];
        let got = filtered(&row, 5, 2, 0, pri, sec, direction, 6);
        tally.number("rounding", got, result);
    }
}

fn direction(tally: &mut Tally) {
    let flat = [130u16; 64];
    let rows: Vec<u16> = (0..64).map(|i| if i / 8 < 4 { 0 } else { 255 }).collect();
    let columns: Vec<u16> = (0..64).map(|i| if i % 8 < 4 { 0 } else { 255 }).collect();
    for (plane, direction, variance) in [
        (&flat[..], 0, 0),
        (&rows[..], 2, 853_453),
        (&columns[..], 6, 853_453),
    ] {
        let got = reference::cdef_direction(plane, 8, 0, 0, 8);
        tally.number("direction", got.0, direction);
        tally.number("variance", got.1, variance);
    }
}

fn filter(tally: &mut Tally) {
    let row = [100, 100, 104, 100, 100];
    tally.number("row", filtered(&row, 5, 2, 0, 4, 0, 2, 3), 102);
    let marked = [100, 100, 104, MARK, 100];
    tally.number("marked", filtered(&marked, 5, 2, 0, 4, 0, 2, 3), 103);
    let mut square = vec![101; 25];
    square[12] = 100;
    for direction in 0..8 {
        let got = filtered(&square, 5, 2, 2, 4, 2, direction, 3);
        tally.number("clipped", got, 101);
        let mirror = Mirror {
            plane: &square,
            width: 5,
            pri: 4,
            sec: 2,
            direction,
            damping: 3,
            depth: 8,
        };
        tally.number("unclipped", mirror.unclipped(2, 2), 102);
    }
    // Four marked taps at damping 31 and strength 1 would move the centre by 1.
    let marks = [MARK, MARK, 100, MARK, MARK];
    tally.number("all marked", filtered(&marks, 5, 2, 0, 1, 0, 2, 31), 100);
    let size = reference::constrain_spec(i32::from(MARK) - 100, 1, 31);
    tally.number("size of a mark", size, 1);
}

/// Chroma of an 8 by 8 picture, 0 but for one sample: that sample after applying the pair 1, 0
/// with luma direction 0.
fn applied(
    sub_y: usize,
    chroma_map: [u8; 8],
    signalled_damping: u8,
    (place, sample): (usize, u16),
) -> i64 {
    let f = Frame {
        width: 8,
        height: 8,
        visible_width: 8,
        visible_height: 8,
        sub_x: 0,
        sub_y,
        depth: 8,
        signalled_damping,
        chroma_map,
        lists: Lists::new(&[0], &[0], &[0]),
    };
    let mut snapshot = vec![0; 64 >> sub_y];
    snapshot[place] = sample;
    let mut plane = snapshot.clone();
    reference::apply_cdef_chroma(&f, &mut plane, &snapshot, &[(1, 0)]);
    plane[place].into()
}

/// A 1 in row 0, column 2: in 4:4:0 the reference's own map would leave it. A 4 in row 2, column
/// 2: with damping 3, that of a call for which none is stated, it stays; with that of quality
/// index 64 it does not.
fn chroma(tally: &mut Tally) {
    for (sub_y, result) in [(0, 1), (1, 0)] {
        let got = applied(sub_y, map::standard(0, sub_y), 3, (2, 1));
        tally.number("chroma", got, result);
    }
    let own = reference::chroma_direction_map(0, 1);
    tally.number("chroma by its own map", applied(1, own, 3, (2, 1)), 1);
    for (damping, result) in [(3, 4), (reference::cdef_damping(64), 3)] {
        let got = applied(0, map::standard(0, 0), damping, (18, 4));
        tally.number("chroma by a damping", got, result);
    }
}

fn distance(tally: &mut Tally) {
    for (side, original, other, depth, result) in [
        (8, 100, 101, 8, 91),
        (8, 400, 404, 10, 1448),
        (4, 100, 101, 8, 16),
    ] {
        let a = vec![original; side * side];
        let b = vec![other; side * side];
        let got = reference::cdef_dist_8x8(&a, &b, side, side, 0, 0, depth);
        tally.number("distance", got, result);
    }
    let (a, b) = ([100u16; 16], [101u16; 16]);
    tally.number("squares", reference::block_sse_8x8(&a, &b, 4, 4, 0, 0), 16);
}
