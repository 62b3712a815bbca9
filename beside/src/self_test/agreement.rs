//! Trying, applying and measuring agree in the reference: RULES, Agreement on small pictures.

use reference::{Apply, Frame, Lists, Measure, Try};
use support::frame::{CHROMA, Kind, map};
use support::random::Random;
use support::report::Tally;

const PAIRS: [(u8, u8); 12] = [
    (0, 0),
    (1, 0),
    (2, 0),
    (4, 0),
    (0, 1),
    (1, 1),
    (2, 1),
    (4, 1),
    (0, 2),
    (1, 2),
    (2, 2),
    (4, 2),
];

/// Coded width and height, visible width and height.
const SIZES: [[usize; 4]; 5] = [
    [8, 8, 8, 8],
    [8, 16, 3, 9],
    [64, 64, 64, 57],
    [72, 72, 70, 67],
    [136, 72, 61, 72],
];

/// Subsampling flags, horizontal and vertical.
pub const LAYOUTS: [(usize, usize); 4] = [(0, 0), (1, 0), (1, 1), (0, 1)];

pub fn check(tally: &mut Tally, r: &mut Random, long: bool) {
    for (number, &(pri, sec)) in PAIRS.iter().enumerate() {
        let got = reference::cand_index(pri, sec);
        tally.number("trial number", got as i64, number as i64);
    }
    for _ in 0..if long { 20 } else { 1 } {
        for size in SIZES {
            for layout in LAYOUTS {
                for depth in 8..=12 {
                    frame(tally, r, size, layout, depth);
                }
            }
        }
    }
}

/// A frame of true directions and random flags, with the standard's chroma direction map.
pub fn of_luma(
    r: &mut Random,
    luma: &[u16],
    [width, height, visible_width, visible_height]: [usize; 4],
    (sub_x, sub_y): (usize, usize),
    depth: u8,
    signalled_damping: u8,
) -> Frame {
    let (directions, variances) = reference::direction_pass(luma, width, height, depth);
    let flag = |_: &u8| u8::from(r.below(5) == 0);
    let skip: Vec<u8> = directions.iter().map(flag).collect();
    Frame {
        width,
        height,
        visible_width,
        visible_height,
        sub_x,
        sub_y,
        depth,
        signalled_damping,
        chroma_map: map::standard(sub_x, sub_y),
        lists: Lists::new(&skip, &directions, &variances),
    }
}

fn frame(tally: &mut Tally, r: &mut Random, size: [usize; 4], layout: (usize, usize), depth: u8) {
    let luma = r.picture(size[0], size[1], depth);
    let damping = r.between(3, 6) as u8;
    let f = of_luma(r, &luma, size, layout, depth, damping);
    let original = r.picture(size[0], size[1], depth);
    plane(tally, r, &f, &luma, &original, Kind::Luma.rust());
    let unfiltered = reference::cdef_luma_unit_dists(&f, &luma, &original, 0, 0);
    let expected = totals(&f, (0, 0), |b| luma_distance(&f, &luma, &original, b));
    tally.same(&"luma totals", unfiltered, expected);
    let chroma = r.picture(f.chroma_width(), f.chroma_height(), depth);
    let original = r.picture(f.chroma_width(), f.chroma_height(), depth);
    plane(tally, r, &f, &chroma, &original, CHROMA[0].rust());
    let unfiltered = reference::cdef_chroma_unit_sse(&f, &chroma, &original, 0, 0);
    let expected = totals(&f, layout, |b| {
        squares(&chroma, &original, f.chroma_width(), b)
    });
    tally.same(&"chroma totals", unfiltered, expected);
}

/// The visible part of a block.
struct Part {
    x: usize,
    y: usize,
    width: usize,
    height: usize,
}

/// The totals (RULES, Frame) of a plane as it stands, from the distance of a block.
fn totals(f: &Frame, halved: (usize, usize), distance: impl Fn(Part) -> i64) -> Vec<i64> {
    let (x_by, y_by) = (1 << halved.0, 1 << halved.1);
    let visible = (
        f.visible_width.div_ceil(x_by),
        f.visible_height.div_ceil(y_by),
    );
    let mut totals = vec![0; f.units()];
    for by in 0..f.block_rows() {
        for bx in 0..f.block_columns() {
            let (x, y) = (bx * 8 / x_by, by * 8 / y_by);
            if !f.lists.skip[by * f.block_columns() + bx] && x < visible.0 && y < visible.1 {
                let part = Part {
                    x,
                    y,
                    width: (visible.0 - x).min(8 / x_by),
                    height: (visible.1 - y).min(8 / y_by),
                };
                totals[by / 8 * f.unit_columns() + bx / 8] += distance(part);
            }
        }
    }
    totals
}

fn squares(a: &[u16], b: &[u16], pitch: usize, part: Part) -> i64 {
    let mut sum = 0;
    for y in part.y..part.y + part.height {
        for x in part.x..part.x + part.width {
            let d = i64::from(a[y * pitch + x]) - i64::from(b[y * pitch + x]);
            sum += d * d;
        }
    }
    sum
}

/// Weighted where the whole block is visible.
fn luma_distance(f: &Frame, plane: &[u16], original: &[u16], part: Part) -> i64 {
    if part.width == 8 && part.height == 8 {
        let (w, h) = (f.width, f.height);
        reference::cdef_dist_8x8(original, plane, w, h, part.x, part.y, f.depth)
    } else {
        squares(plane, original, f.width, part)
    }
}

fn plane(
    tally: &mut Tally,
    r: &mut Random,
    f: &Frame,
    snapshot: &[u16],
    original: &[u16],
    (try_all, measure, apply): (Try, Measure, Apply),
) {
    let tried = try_all(f, snapshot, original);
    for (number, &(pri, sec)) in PAIRS.iter().enumerate() {
        let measured = measure(f, snapshot, original, pri, sec);
        let expected = tried.iter().map(|unit| unit[number]).collect();
        tally.same(
            &format!("measured with pair {pri} {sec}"),
            measured,
            expected,
        );
    }
    let numbers: Vec<usize> = tried.iter().map(|_| r.below(12) as usize).collect();
    let pairs: Vec<(u8, u8)> = numbers.iter().map(|&n| PAIRS[n]).collect();
    let mut applied = snapshot.to_vec();
    apply(f, &mut applied, snapshot, &pairs);
    let measured = measure(f, &applied, original, 0, 0);
    let expected = tried
        .iter()
        .zip(&numbers)
        .map(|(unit, &n)| unit[n])
        .collect();
    tally.same(&"measured after applying", measured, expected);
}
