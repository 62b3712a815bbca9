//! The questions (RULES, Questions) for the calls on blocks, written from the rules alone:
//! the error code, which is the number of the first check that fails, or 0.

use crate::block::Block;
use crate::direction::Direction;
use crate::distance::Distance;
use crate::filter::Filter;
use crate::planes::{DEPTHS, SIDE_MAX};
use crate::spot::{Area, Spot};
use crate::trial::Trial;
use crate::working_damping::WorkingDamping;
use reference::MARK;

/// 1 and 8.
pub fn working_damping(c: &WorkingDamping) -> u32 {
    if !DEPTHS.contains(&c.depth) {
        1
    } else if c.signalled < 3 || c.signalled > 6 {
        8
    } else {
        0
    }
}

/// 1, 2, 4, 5 and 9.
pub fn direction(c: &Direction) -> u32 {
    let planes = [&*c.0.plane];
    match of_spot(&c.0, &planes) {
        0 => of_samples(&c.0, &planes, c.area(), false),
        number => number,
    }
}

/// 1, 2, 4, 5, 6, 8 and 9.
pub fn filter(c: &Filter) -> u32 {
    let (b, s) = (&c.block, &c.block.spot);
    let number = of_block(b);
    if number != 0 {
        return number;
    }
    let (rows, part) = (c.dst.len() / s.width, c.dst.len() % s.width);
    let reached = (s.y + b.height).min(s.height);
    if part != 0 || c.y0 > s.y || c.y0 + rows < reached {
        return 6;
    }
    let scale = s.depth - 8;
    if c.pri > 15 << scale || c.sec > 4 << scale || b.dir >= 8 || b.damping > 31 {
        return 8;
    }
    of_samples(s, &[&s.plane], b.area(), true)
}

/// 1, 2, 4, 5, 7, 8 and 9.
pub fn trial(c: &Trial) -> u32 {
    let b = &c.block;
    let number = of_block(b);
    if number != 0 {
        number
    } else if c.places != 768 {
        7
    } else if (c.luma == 1 && c.variance > 860_160) || b.dir >= 8 || b.damping > 31 {
        8
    } else {
        of_samples(&b.spot, &[&b.spot.plane], b.area(), true)
    }
}

/// 1, 2, 4, 5 and 9, 4 and 9 of both planes.
pub fn distance(c: &Distance) -> u32 {
    let planes = c.planes();
    match of_spot(&c.spot, &planes) {
        0 => of_samples(&c.spot, &planes, c.area(), false),
        number => number,
    }
}

/// 1, 2, 4 and 5, of a plane and a block on it.
fn of_block(b: &Block) -> u32 {
    let side = 1..=8;
    let number = of_spot(&b.spot, &[&b.spot.plane]);
    if number != 0 {
        number
    } else if !side.contains(&b.width) || !side.contains(&b.height) {
        5
    } else {
        0
    }
}

/// 1, 2, 4 and 5, as far as they concern planes of one size and a position on them.
fn of_spot(s: &Spot, planes: &[&[u16]]) -> u32 {
    let side = 1..=SIDE_MAX;
    if !DEPTHS.contains(&s.depth) {
        1
    } else if !side.contains(&s.width) || !side.contains(&s.height) {
        2
    } else if planes.iter().any(|p| p.len() != s.width * s.height) {
        4
    } else if s.x >= s.width || s.y >= s.height {
        5
    } else {
        0
    }
}

/// 9, of the examined samples of each plane.
fn of_samples(s: &Spot, planes: &[&[u16]], area: Area, with_mark: bool) -> u32 {
    let taken = |v: &u16| *v >> s.depth == 0 || (with_mark && *v == MARK);
    let whole = |plane: &&[u16]| s.rows(plane, &area).all(|row| row.iter().all(taken));
    if planes.iter().all(whole) { 0 } else { 9 }
}
