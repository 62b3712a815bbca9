//! Cases that a call accepts; but the sides may be out of range, with lists that fit them.

use crate::case::Call::{self, *};
use crate::case::{Case, Numbers};
use crate::lent::List;
use crate::random::Random;

const SIDE_MAX: usize = 4096;

/// What kind of sides are drawn.
#[derive(Clone, Copy, PartialEq)]
pub enum Sides {
    Usual,
    Refused,
    Largest,
}

/// Draws every number and list of the call.
pub fn draw(c: &mut Case, call: Call, sides: Sides, r: &mut Random) {
    c.call = call;
    c.n = Numbers::default();
    single_numbers(&mut c.n, call, r);
    if matches!(
        call,
        Constrain | AdjustPri | Damping | LumaDamping | ChromaDamping
    ) {
        any(&mut c.vars, 1, r);
        any(&mut c.dirs, 1, r);
        return;
    }
    (c.n.width, c.n.height) = match sides {
        Sides::Largest => (SIDE_MAX, SIDE_MAX),
        Sides::Refused => refused_sides(call.is_frame(), r),
        Sides::Usual if call.is_frame() => frame_sides(r),
        Sides::Usual => block_sides(r),
    };
    if call.is_frame() {
        frame_numbers(&mut c.n, call, r);
        frame_lists(c, r);
    } else {
        block_numbers(&mut c.n, call, r);
        block_lists(c, r);
    }
}

fn up_to(n: usize, r: &mut Random) -> usize {
    r.below(n as u64 + 1) as usize
}

/// The two in either order.
fn turned((a, b): (usize, usize), r: &mut Random) -> (usize, usize) {
    if r.below(2) == 0 { (a, b) } else { (b, a) }
}

fn block_sides(r: &mut Random) -> (usize, usize) {
    if r.below(128) == 0 {
        return turned((SIDE_MAX, 1 + up_to(1, r)), r);
    }
    (1 + up_to(18, r), 1 + up_to(18, r))
}

fn frame_sides(r: &mut Random) -> (usize, usize) {
    match r.below(8192) {
        0 => turned((SIDE_MAX, 8), r),
        1..=32 => turned((8 * (8 + up_to(9, r)), 8), r),
        _ => (8 * r.pick(&[1, 1, 1, 2, 3]), 8 * r.pick(&[1, 1, 1, 2])),
    }
}

/// Sides that fail question 2, with planes that are not long.
fn refused_sides(is_frame: bool, r: &mut Random) -> (usize, usize) {
    let other = if is_frame { 8 } else { 1 };
    match r.below(64) {
        0 => turned((r.pick(&[SIDE_MAX + 1, SIDE_MAX + 8]), other), r),
        1..=8 => (0, 0),
        9..=31 => turned((0, 8), r),
        _ if is_frame => turned((1 + up_to(20, r), 8), r),
        _ => turned((0, 1 + up_to(8, r)), r),
    }
}

fn single_numbers(n: &mut Numbers, call: Call, r: &mut Random) {
    n.damping = r.below(32) as u8;
    match call {
        Constrain => {
            n.difference = r.between(-4095, 4095) as i32;
            n.strength = r.below(241) as u32;
        }
        AdjustPri => {
            n.strength = r.below(241) as u32;
            n.variance = variance(r.next());
        }
        Damping => n.quality = r.below(256) as u32,
        LumaDamping | ChromaDamping => {
            n.damping = 3 + r.below(4) as u8;
            n.depth = 8 + r.below(5) as u8;
        }
        _ => n.depth = 8 + r.below(5) as u8,
    }
}

fn variance(bits: u64) -> u32 {
    (((bits >> 32) * 860_161) >> 32) as u32 >> (bits & 15)
}

/// A position along a side, often near its end.
fn place(side: usize, r: &mut Random) -> usize {
    let last = side.saturating_sub(1);
    match r.below(4) {
        0 => last,
        1 => last - up_to(last.min(9), r),
        _ => up_to(last, r),
    }
}

/// A side from 1 on, often the whole one.
fn part(side: usize, r: &mut Random) -> usize {
    if r.below(2) == 0 {
        side
    } else {
        1 + place(side, r)
    }
}

fn block_numbers(n: &mut Numbers, call: Call, r: &mut Random) {
    n.x = place(n.width, r);
    n.y = place(n.height, r);
    if matches!(call, Direction | Distance | Squares) {
        return;
    }
    n.bw = part(8, r);
    n.bh = part(8, r);
    n.dir = r.below(8) as u8;
    match call {
        FilterBlock => {
            let shift = n.depth - 8;
            n.pri = up_to(15 << shift, r) as u32;
            n.sec = up_to(4 << shift, r) as u32;
            n.y0 = n.y - up_to(n.y.min(2), r);
        }
        TrialLuma => n.variance = variance(r.next()),
        _ => {}
    }
}

fn block_lists(c: &mut Case, r: &mut Random) {
    let (n, count) = (&c.n, c.n.width * c.n.height);
    samples(&mut c.plane, count, n.depth, r);
    match c.call {
        Direction => {
            any(&mut c.dirs, 1, r);
            any(&mut c.vars, 1, r);
        }
        Distance | Squares => {
            samples(&mut c.other, count, n.depth, r);
            any(&mut c.totals, 1, r);
        }
        FilterBlock => {
            let rows = (n.y + n.bh).min(n.height).saturating_sub(n.y0) + up_to(2, r);
            samples(&mut c.dst, rows * n.width, 16, r);
            marks(&mut c.plane, r);
        }
        _ => {
            samples(&mut c.dst, 768, 16, r);
            marks(&mut c.plane, r);
        }
    }
}

fn frame_numbers(n: &mut Numbers, call: Call, r: &mut Random) {
    if call.is_chroma_frame() {
        n.sx = r.below(2) as u8;
        n.sy = r.below(2) as u8;
    }
    if call == DirectionPass {
        return;
    }
    if !matches!(call, ApplyLuma | ApplyChroma) {
        n.visible_width = part(n.width, r);
        n.visible_height = part(n.height, r);
    }
    if matches!(call, MeasureLuma | MeasureChroma) {
        n.primary = r.below(16) as u8;
        n.secondary = r.pick(&[0, 1, 2, 4]);
    }
    // A damping that is not used holds anything.
    (n.damping, n.unstated) = if r.below(2) == 0 {
        (3 + r.below(4) as u8, 0)
    } else {
        (r.next() as u8, 1)
    };
}

fn frame_lists(c: &mut Case, r: &mut Random) {
    let (n, width, height) = (&c.n, c.n.width >> c.n.sx, c.n.height >> c.n.sy);
    let blocks = (n.width / 8) * (n.height / 8);
    let units = n.width.div_ceil(64) * n.height.div_ceil(64);
    samples(&mut c.plane, width * height, n.depth, r);
    if c.call == DirectionPass {
        any(&mut c.dirs, blocks, r);
        any(&mut c.vars, blocks, r);
        return;
    }
    list(&mut c.skip, blocks, r, |bits| bits as u8 & 1);
    list(&mut c.dirs, blocks, r, |bits| bits as u8 & 7);
    if !c.call.is_chroma_frame() {
        list(&mut c.vars, blocks, r, variance);
    }
    match c.call {
        TryLuma | TryChroma => {
            samples(&mut c.other, width * height, n.depth, r);
            any(&mut c.totals, 12 * units, r);
        }
        MeasureLuma | MeasureChroma => {
            samples(&mut c.other, width * height, n.depth, r);
            any(&mut c.totals, units, r);
            samples(&mut c.dst, width * (8 >> n.sy), 16, r);
        }
        _ => {
            samples(&mut c.dst, width * height, 16, r);
            list(&mut c.pris, units, r, |bits| bits as u8 & 15);
            list(&mut c.secs, units, r, |bits| {
                [0, 1, 2, 4][bits as usize & 3]
            });
        }
    }
}

fn list<T>(list: &mut List<T>, count: usize, r: &mut Random, of: impl Fn(u64) -> T) {
    list.held.clear();
    list.held.extend((0..count).map(|_| of(r.next())));
}

/// Numbers of any size.
fn any<T: crate::random::Cut>(places: &mut List<T>, count: usize, r: &mut Random) {
    list(places, count, r, T::cut);
}

/// Numbers of so many bits: any, few levels, or one.
fn samples(plane: &mut List<u16>, count: usize, bits: u8, r: &mut Random) {
    let range = ((1u32 << bits) - 1) as u16;
    let base = r.next() as u16 & range;
    let moving = r.pick(&[range, range, 0x0303 & range, 0]);
    plane.held.resize(count, 0);
    for four in plane.held.chunks_mut(4) {
        let mut drawn = r.next();
        for sample in four {
            *sample = base ^ (drawn as u16 & moving);
            drawn >>= 16;
        }
    }
}

/// Marks at some positions, of some planes.
fn marks(plane: &mut List<u16>, r: &mut Random) {
    let count = plane.held.len();
    if count > 0 && r.below(4) == 0 {
        for _ in 0..=r.below(6) {
            plane.held[up_to(count - 1, r)] = 16384;
        }
    }
}
