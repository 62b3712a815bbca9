//! The lines repeated from `frame_cdef` (direction pass, its own chroma direction map,
//! dampings) against `frame_cdef` itself, run whole: what it leaves in the planes is
//! what applying its own pairs leaves. In 4:4:0 it is not what the standard's map leaves.

use crate::agreement::{LAYOUTS, of_luma};
use reference::{Frame, Picked};
use support::frame::map;
use support::random::Random;
use support::report::Tally;

const SIZE: [usize; 4] = [136, 72, 131, 70];

/// Every signalled damping at every depth, under little noise and under much. In some picture
/// the next lower and the next higher damping would leave other samples, and in some of 4:4:0
/// the other direction map would.
pub fn check(tally: &mut Tally, r: &mut Random, long: bool) {
    let mut distinct = [[false; 20]; 2];
    let mut by_map = [0, 0];
    for round in 0..if long { 40 } else { 8 } {
        let (step, noise) = (round % 4, [2, 16][round as usize / 4 % 2]);
        for layout in LAYOUTS {
            for depth in 8..=12 {
                let index = (64 * step + r.below(64)) as u8;
                let [luma, chroma, map] = picture(tally, r, layout, depth, index, noise);
                for (distinct, plane) in distinct.iter_mut().zip([luma, chroma]) {
                    distinct[step as usize * 5 + usize::from(depth) - 8] |= plane;
                }
                by_map[usize::from(layout == (0, 1))] += i64::from(map);
            }
        }
    }
    for (distinct, plane) in distinct.iter().zip(["luma", "chroma"]) {
        let count = distinct.iter().filter(|&&d| d).count();
        tally.number(&format!("distinct dampings, {plane}"), count as i64, 20);
    }
    let [others, halved_down] = by_map;
    tally.number("4:4:0 by the standard's map", i64::from(halved_down > 0), 1);
    tally.number("other layouts by the standard's map", others, 0);
}

/// As `others`, of a random picture.
fn picture(
    tally: &mut Tally,
    r: &mut Random,
    layout: (usize, usize),
    depth: u8,
    index: u8,
    noise: i64,
) -> [bool; 3] {
    let original = planes(r, layout, depth);
    let snapshot = original.each_ref().map(|p| noisy(r, p, depth, noise));
    let damping = reference::cdef_damping(index);
    let f = Frame {
        chroma_map: reference::chroma_direction_map(layout.0, layout.1),
        ..of_luma(r, &snapshot[0], SIZE, layout, depth, damping)
    };
    let mut left = snapshot.clone();
    let Some(picked) = reference::frame_cdef(&f, index, &mut left, &original) else {
        return [false; 3];
    };
    tally.number("damping", picked.signalled_damping, damping);
    for (applied, left) in applied(&f, &snapshot, &picked).iter().zip(&left) {
        tally.same(
            &format!("plane, layout {layout:?}"),
            wide(applied),
            wide(left),
        );
    }
    others(&f, &snapshot, &picked, &left)
}

/// Whether the next dampings would leave other samples, in luma and in chroma; and whether
/// the standard's chroma direction map would.
fn others(f: &Frame, snapshot: &[Vec<u16>; 3], picked: &Picked, left: &[Vec<u16>; 3]) -> [bool; 3] {
    let next = [f.signalled_damping - 1, f.signalled_damping + 1].map(|signalled_damping| {
        let f = Frame {
            signalled_damping,
            ..f.clone()
        };
        applied(&f, snapshot, picked)
    });
    let by_standard = Frame {
        chroma_map: map::standard(f.sub_x, f.sub_y),
        ..f.clone()
    };
    [
        next.iter().all(|planes| planes[0] != left[0]),
        next.iter().all(|planes| planes[1..] != left[1..]),
        applied(&by_standard, snapshot, picked) != *left,
    ]
}

/// The three planes filtered with the picked pairs.
fn applied(f: &Frame, snapshot: &[Vec<u16>; 3], picked: &Picked) -> [Vec<u16>; 3] {
    let mut planes = snapshot.clone();
    reference::apply_cdef_plane(f, &mut planes[0], &snapshot[0], &picked.luma);
    for p in 1..3 {
        reference::apply_cdef_chroma(f, &mut planes[p], &snapshot[p], &picked.chroma);
    }
    planes
}

fn wide(plane: &[u16]) -> Vec<i64> {
    plane.iter().map(|&s| s.into()).collect()
}

fn planes(r: &mut Random, (sub_x, sub_y): (usize, usize), depth: u8) -> [Vec<u16>; 3] {
    let (width, height) = (SIZE[0] >> sub_x, SIZE[1] >> sub_y);
    [
        r.picture(SIZE[0], SIZE[1], depth),
        r.picture(width, height, depth),
        r.picture(width, height, depth),
    ]
}

/// The plane with noise that filtering removes.
fn noisy(r: &mut Random, plane: &[u16], depth: u8, noise: i64) -> Vec<u16> {
    let (max, far) = ((1i64 << depth) - 1, noise << (depth - 8));
    let mut moved = |s: u16| (i64::from(s) + r.between(-far, far)).clamp(0, max) as u16;
    plane.iter().map(|&s| moved(s)).collect()
}
