//! Damaged cases. After most damage a check of the call fails; at a limit it may not.

use crate::case::Call::{self, *};
use crate::case::{Case, Slot};
use crate::draw::{Sides, draw};
use crate::lent::{Lend, List};
use crate::model::asked;
use crate::random::Random;

/// Draws a case and damages it in as many places as are drawn: none, one, some or many.
pub fn case(c: &mut Case, call: Call, largest: bool, r: &mut Random) {
    let count = match r.below(16) {
        _ if largest => r.below(2),
        0..=2 => 0,
        3..=10 => 1,
        11..=13 => 2,
        14 => 3 + r.below(2),
        _ => 5 + r.below(8),
    };
    let refused = count > 0 && asked(call).contains(&2) && r.below(8) == 0;
    let (sides, left) = match (largest, refused) {
        (true, _) => (Sides::Largest, count),
        (_, true) => (Sides::Refused, count - 1),
        _ => (Sides::Usual, count),
    };
    draw(c, call, sides, r);
    for _ in 0..left {
        let question = r.pick(asked(call));
        damage(c, question, r);
    }
}

/// Damages what the question of that number checks.
pub fn damage(c: &mut Case, question: u32, r: &mut Random) {
    match question {
        1 => {
            let (near, any) = (beyond_u8(12, r), r.next() as u8);
            c.n.depth = r.pick(&[0, 1, 7, 8, 13, 16, near, any]);
        }
        2 => sides(c, r),
        3 if r.below(2) == 0 => c.n.sx = beyond_u8(1, r),
        3 => c.n.sy = beyond_u8(1, r),
        4 => {
            let slot = a_slot(c, true, r);
            let row = c.n.width;
            change_length(c.list(slot), row, r);
        }
        5 => block(c, r),
        6 => destination(c, r),
        7 => lists(c, r),
        8 if c.call.is_frame() => frame_values(c, r),
        8 => values(c, r),
        _ => samples(c, r),
    }
}

const SIZES: [usize; 8] = [0, 1, 4095, 4096, 4097, 1 << 32, 1 << 63, usize::MAX];

/// A size or position at or past a limit, one that a narrower type would wrap into range, or any.
fn beyond(n: usize, r: &mut Random) -> usize {
    match r.below(4) {
        0 => r.pick(&SIZES),
        1 => n.wrapping_add(r.pick(&[1 << 8, 1 << 16, 1 << 32, 1 << 61, 1 << 63])),
        2 => n.wrapping_add(r.pick(&[0, 1, 8, usize::MAX, usize::MAX - 7])),
        _ => r.of_bits(64) as usize,
    }
}

fn beyond_u32(limit: u32, r: &mut Random) -> u32 {
    match r.below(4) {
        0 => limit + r.below(3) as u32,
        1 => r.pick(&[limit + 256, limit + 65_536, 1 << 31, u32::MAX - 1, u32::MAX]),
        2 => r.below(u64::from(limit) + 1) as u32 | 1 << (8 + r.below(24)),
        _ => r.of_bits(32) as u32,
    }
}

fn beyond_u8(limit: u8, r: &mut Random) -> u8 {
    let any = r.next() as u8;
    r.pick(&[limit, limit + 1, limit + 2, 128, 255, any])
}

/// One of the planes that are passed to the call, or one of its other lists.
fn a_slot(c: &Case, planes: bool, r: &mut Random) -> Slot {
    let is_plane = |slot: &Slot| match slot {
        Slot::Plane | Slot::Other => true,
        Slot::Dst => matches!(c.call, ApplyLuma | ApplyChroma),
        _ => false,
    };
    let lent = || c.call.lent().filter(|slot| is_plane(slot) == planes);
    let k = r.below(lent().count() as u64);
    lent().nth(k as usize).expect("the call has one")
}

/// One element fewer or more, none, a row fewer or more, or any length up to twice as much.
fn change_length(list: &mut dyn Lend, row: usize, r: &mut Random) {
    let (length, row) = (list.len(), row.min(4096));
    let any = r.below(2 * length as u64 + 2) as usize;
    list.set_len(match r.below(8) {
        0 | 1 => length.saturating_sub(1),
        2 | 3 => length + 1,
        4 => 0,
        5 => length + row,
        6 => length.saturating_sub(row),
        _ => any.min(length + row),
    });
}

/// Sides whose product wraps.
const WRAPPING: [(usize, usize); 8] = [
    (1 << 32, 1 << 32),
    (1 << 33, 1 << 31),
    (1 << 63, 2),
    (2, 1 << 63),
    (1 << 61, 8),
    (8, 1 << 61),
    (usize::MAX, usize::MAX),
    ((1 << 61) + 1, 8),
];

fn sides(c: &mut Case, r: &mut Random) {
    let (width, height) = (c.n.width, c.n.height);
    match r.below(8) {
        // In the type's own arithmetic the planes are full.
        0 => {
            (c.n.width, c.n.height) = r.pick(&WRAPPING);
            let product = c.n.width.wrapping_mul(c.n.height);
            c.plane.set_len(product);
            c.other.set_len(product);
        }
        1 => {
            let zeros = height.trailing_zeros().clamp(1, 63);
            c.n.width = width.wrapping_add(1 << (64 - zeros));
        }
        2 => (c.n.width, c.n.height) = (beyond(width, r), beyond(height, r)),
        3 | 4 => c.n.width = beyond(width, r),
        5 => c.n.width = width ^ 1 << r.below(3),
        _ => c.n.height = beyond(height, r),
    }
}

fn block(c: &mut Case, r: &mut Random) {
    let has_sides = matches!(c.call, FilterBlock | TrialLuma | TrialChroma);
    match r.below(if has_sides { 4 } else { 2 }) {
        0 => c.n.x = beyond(c.n.width, r),
        1 => c.n.y = beyond(c.n.height, r),
        2 => c.n.bw = beyond(8, r),
        _ => c.n.bh = beyond(8, r),
    }
}

fn destination(c: &mut Case, r: &mut Random) {
    match r.below(3) {
        0 => c.n.y0 = beyond(c.n.y, r),
        _ => change_length(&mut c.dst, c.n.width, r),
    }
}

fn lists(c: &mut Case, r: &mut Random) {
    let has_visible = matches!(c.call, TryLuma | TryChroma | MeasureLuma | MeasureChroma);
    match r.below(if has_visible { 8 } else { 6 }) {
        6 => c.n.visible_width = beyond(c.n.width, r),
        7 => c.n.visible_height = beyond(c.n.height, r),
        _ => {
            let slot = a_slot(c, false, r);
            change_length(c.list(slot), 2, r);
        }
    }
}

/// Signalled dampings at the limits and past them.
const SIGNALLED: [u8; 8] = [0, 2, 3, 6, 7, 31, 128, 255];

fn values(c: &mut Case, r: &mut Random) {
    let shift = c.n.depth.wrapping_sub(8) & 7;
    match (c.call, r.below(4)) {
        (Damping, _) => c.n.quality = beyond_u32(255, r),
        (LumaDamping | ChromaDamping, 0) => c.n.damping = r.next() as u8,
        (LumaDamping | ChromaDamping, _) => c.n.damping = r.pick(&SIGNALLED),
        (Constrain | AdjustPri, 0 | 1) => c.n.strength = beyond_u32(240, r),
        (FilterBlock, 0) => c.n.pri = beyond_u32(15 << shift, r),
        (FilterBlock, 1) => c.n.sec = beyond_u32(4 << shift, r),
        (AdjustPri, _) | (TrialLuma, 0 | 1) => c.n.variance = beyond_u32(860_160, r),
        (Constrain, _) | (_, 2) => c.n.damping = beyond_u8(31, r),
        _ => c.n.dir = beyond_u8(7, r),
    }
}

fn frame_values(c: &mut Case, r: &mut Random) {
    let secondary = r.pick(&[3, 4, 5, 8, 16, 128, 255]);
    match (c.call, r.below(8)) {
        (_, 0 | 1) => put(&mut c.skip, beyond_u8(1, r), r),
        (_, 2) => put(&mut c.dirs, beyond_u8(7, r), r),
        (TryLuma | MeasureLuma | ApplyLuma, 3) => put(&mut c.vars, beyond_u32(860_160, r), r),
        (ApplyLuma | ApplyChroma, 4) => put(&mut c.pris, beyond_u8(15, r), r),
        (ApplyLuma | ApplyChroma, 5) => put(&mut c.secs, secondary, r),
        (MeasureLuma | MeasureChroma, 4) => c.n.primary = beyond_u8(15, r),
        (MeasureLuma | MeasureChroma, 5) => c.n.secondary = secondary,
        (_, 6) => {
            c.n.unstated = 0;
            c.n.damping = r.pick(&SIGNALLED);
        }
        _ => {
            c.n.unstated = beyond_u8(1, r);
            c.n.damping = r.pick(&SIGNALLED);
        }
    }
}

/// One element of the list, if it has one.
fn put<T>(list: &mut List<T>, value: T, r: &mut Random) {
    let k = r.below(list.held.len() as u64) as usize;
    if let Some(place) = list.held.get_mut(k) {
        *place = value;
    }
}

fn samples(c: &mut Case, r: &mut Random) {
    if c.call == Constrain {
        let end = r.pick(&[4095, 4096, 4097, 65_536, i32::MAX]) - r.below(2) as i32;
        let any = r.next() as i32;
        c.n.difference = r.pick(&[end, -end, -end - 1, any]);
        return;
    }
    let limit = 1u16 << c.n.depth.min(15);
    let any = r.next() as u16;
    let sample = r.pick(&[limit - 1, limit, limit, 16_383, 16_384, 16_385, 65_535, any]);
    let (width, x, y) = (c.n.width, c.n.x, c.n.y);
    let second = c.call.shared().contains(&Slot::Other) && r.below(2) == 0;
    let plane = if second { &mut c.other } else { &mut c.plane };
    // Near the block, at any position, or everywhere.
    let near = |at: usize, r: &mut Random| at.wrapping_add(r.below(12) as usize).wrapping_sub(2);
    let row = near(y, r).wrapping_mul(width);
    let at = row.wrapping_add(near(x, r));
    match r.below(16) {
        0 => plane.held.fill(sample),
        1..=9 if at < plane.held.len() => plane.held[at] = sample,
        _ => put(plane, sample, r),
    }
}
