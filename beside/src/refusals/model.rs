//! The nine questions, one function each, written from RULES, Questions alone.
//! Sizes and positions are widened before they are added or multiplied, so nothing wraps.

use crate::case::Call::{self, *};
use crate::case::Case;
use crate::lent::{Lend, List};

/// The questions that concern a call, in order.
pub fn asked(call: Call) -> &'static [u32] {
    match call {
        Constrain => &[8, 9],
        AdjustPri | Damping => &[8],
        LumaDamping | ChromaDamping => &[1, 8],
        Direction | Distance | Squares => &[1, 2, 4, 5, 9],
        FilterBlock => &[1, 2, 4, 5, 6, 8, 9],
        TrialLuma | TrialChroma => &[1, 2, 4, 5, 7, 8, 9],
        DirectionPass => &[1, 2, 4, 7, 9],
        TryLuma | MeasureLuma | ApplyLuma => &[1, 2, 4, 7, 8, 9],
        TryChroma | MeasureChroma | ApplyChroma => &[1, 2, 3, 4, 7, 8, 9],
    }
}

/// The error code: the number of the first check that fails, 0 where none does.
pub fn first_no(c: &Case) -> u32 {
    let says_no = |number: &&u32| match number {
        1 => !depth(c),
        2 => !sides(c),
        3 => !halving(c),
        4 => !planes(c),
        5 => !block(c),
        6 => !destination(c),
        7 => !lists(c),
        8 => !values(c),
        _ => !samples(c),
    };
    asked(c.call).iter().find(says_no).copied().unwrap_or(0)
}

fn wide(n: usize) -> u128 {
    n as u128
}

/// 1: the bit depth is 8 to 12.
fn depth(c: &Case) -> bool {
    (8..=12).contains(&c.n.depth)
}

/// 2: both sides are 1 to 4,096, and in frame calls multiples of 8.
fn sides(c: &Case) -> bool {
    let taken =
        |side: usize| (1..=4096).contains(&side) && (!c.call.is_frame() || side.is_multiple_of(8));
    taken(c.n.width) && taken(c.n.height)
}

/// 3: both chroma subsampling flags are 0 or 1.
fn halving(c: &Case) -> bool {
    c.n.sx <= 1 && c.n.sy <= 1
}

/// Width and height of the plane itself; the flags are 0 except in chroma frame calls.
fn plane_sides(c: &Case) -> (u128, u128) {
    (wide(c.n.width) >> c.n.sx, wide(c.n.height) >> c.n.sy)
}

/// 4: each plane holds exactly width × height samples.
fn planes(c: &Case) -> bool {
    let (width, height) = plane_sides(c);
    let full = |plane: &List<u16>| wide(plane.len()) == width * height;
    let second = match c.call {
        Distance | Squares | TryLuma | TryChroma | MeasureLuma | MeasureChroma => &c.other,
        ApplyLuma | ApplyChroma => &c.dst,
        _ => &c.plane,
    };
    full(&c.plane) && full(second)
}

/// 5: x is below the width and y below the height, and each block side is 1 to 8.
fn block(c: &Case) -> bool {
    let sides = match c.call {
        FilterBlock | TrialLuma | TrialChroma => [c.n.bw, c.n.bh],
        _ => [8, 8],
    };
    let small = sides.iter().all(|side| (1..=8).contains(side));
    c.n.x < c.n.width && c.n.y < c.n.height && small
}

/// 6: the destination holds whole rows, starts at or above y and reaches the smaller of
/// y + block height and the plane height.
fn destination(c: &Case) -> bool {
    let (length, width) = (wide(c.dst.len()), wide(c.n.width));
    let end = (wide(c.n.y) + wide(c.n.bh)).min(wide(c.n.height));
    length % width == 0 && c.n.y0 <= c.n.y && wide(c.n.y0) + length / width >= end
}

/// 7: every list has its exact length, and the visible sides are 1 to luma's.
fn lists(c: &Case) -> bool {
    let (width, height) = (wide(c.n.width), wide(c.n.height));
    let blocks = (width / 8) * (height / 8);
    let units = width.div_ceil(64) * height.div_ceil(64);
    let scratch = plane_sides(c).0 * (8 >> c.n.sy);
    let totals = wide(c.totals.len());
    let dirs = wide(c.dirs.len()) == blocks;
    let vars = wide(c.vars.len()) == blocks;
    let a_block = wide(c.skip.len()) == blocks && dirs && (vars || c.call.is_chroma_frame());
    let a_unit = |list: &List<u8>| wide(list.len()) == units;
    let visible = (1..=c.n.width).contains(&c.n.visible_width)
        && (1..=c.n.height).contains(&c.n.visible_height);
    match c.call {
        DirectionPass => dirs && vars,
        TryLuma | TryChroma => a_block && totals == 12 * units && visible,
        MeasureLuma | MeasureChroma => {
            a_block && totals == units && wide(c.dst.len()) == scratch && visible
        }
        ApplyLuma | ApplyChroma => a_block && a_unit(&c.pris) && a_unit(&c.secs),
        _ => c.dst.len() == 768,
    }
}

/// 8: flags, directions, variances, strengths, damping and quality index are in range.
fn values(c: &Case) -> bool {
    let n = &c.n;
    let working_damping = n.damping <= 31;
    match c.call {
        Constrain => n.strength <= 240 && working_damping,
        AdjustPri => n.strength <= 240 && variance(&n.variance),
        Damping => n.quality <= 255,
        LumaDamping | ChromaDamping => (3..=6).contains(&n.damping),
        FilterBlock => {
            let shift = n.depth - 8;
            n.pri <= 15 << shift && n.sec <= 4 << shift && n.dir < 8 && working_damping
        }
        TrialLuma => variance(&n.variance) && n.dir < 8 && working_damping,
        TrialChroma => n.dir < 8 && working_damping,
        _ => frame_values(c),
    }
}

fn variance(v: &u32) -> bool {
    *v <= 860_160
}

fn frame_values(c: &Case) -> bool {
    let n = &c.n;
    let primary = |p: &u8| *p <= 15;
    let secondary = |s: &u8| [0, 1, 2, 4].contains(s);
    let pairs = match c.call {
        MeasureLuma | MeasureChroma => primary(&n.primary) && secondary(&n.secondary),
        ApplyLuma | ApplyChroma => {
            c.pris.held.iter().all(primary) && c.secs.held.iter().all(secondary)
        }
        _ => true,
    };
    let damping = match n.unstated {
        0 => (3..=6).contains(&n.damping),
        1 => true,
        _ => false,
    };
    let flags = c.skip.held.iter().all(|flag| *flag <= 1);
    let directions = c.dirs.held.iter().all(|direction| *direction < 8);
    let variances = c.call.is_chroma_frame() || c.vars.held.iter().all(variance);
    pairs && damping && flags && directions && variances
}

/// 9: each examined sample is below 2^depth; block filter and trial also accept the mark.
fn samples(c: &Case) -> bool {
    let below = |v: &u16| u32::from(*v) < 1 << c.n.depth;
    let or_mark = |v: &u16| below(v) || *v == 16384;
    let (plane, other) = (&c.plane.held[..], &c.other.held[..]);
    match c.call {
        Constrain => (-4095..=4095).contains(&c.n.difference),
        Direction => looked_at(c, plane, (8, 8), 0, below),
        Distance | Squares => [plane, other]
            .iter()
            .all(|p| looked_at(c, p, (8, 8), 0, below)),
        FilterBlock | TrialLuma | TrialChroma => looked_at(c, plane, (c.n.bw, c.n.bh), 2, or_mark),
        DirectionPass | ApplyLuma | ApplyChroma => plane.iter().all(below),
        _ => plane.iter().all(below) && other.iter().all(below),
    }
}

/// Whether each sample of a block passes, the block widened on each side and cropped to the plane.
fn looked_at(
    c: &Case,
    plane: &[u16],
    (block_width, block_height): (usize, usize),
    widened: usize,
    passes: impl Fn(&u16) -> bool,
) -> bool {
    let (x, y, width, height) = (c.n.x, c.n.y, c.n.width, c.n.height);
    let columns = x.saturating_sub(widened)..(x + block_width + widened).min(width);
    let mut rows = y.saturating_sub(widened)..(y + block_height + widened).min(height);
    rows.all(|row| plane[row * width..][columns.clone()].iter().all(&passes))
}
