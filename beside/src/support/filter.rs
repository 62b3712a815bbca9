//! Cases of the block filter.

mod stated;

use crate::block::{Block, any_damping, any_side};
use crate::counts::Amount;
use crate::planes::{Plane, SMALL};
use crate::random::Random;
use crate::spot::wild_size;
use crate::{Case, WIDE, joined, questions};
use reference::MARK;
use std::borrow::Cow;
use std::fmt::{Display, Formatter, Result};

/// Rows that a destination may have past the plane.
const PAST: usize = 2;

/// The working primary and secondary strength at most.
pub fn strengths_max(depth: u8) -> (u32, u32) {
    (15 << (depth - 8), 4 << (depth - 8))
}

#[derive(Clone)]
pub struct Filter<'a> {
    pub block: Block<'a>,
    /// The destination before the call: rows from row `y0` on.
    pub dst: Cow<'a, [u16]>,
    pub y0: usize,
    pub pri: u32,
    pub sec: u32,
}

/// What a plane's destinations hold before: any numbers, and rows past the plane.
pub fn under(plane: &Plane, r: &mut Random) -> Vec<u16> {
    let count = plane.width * (plane.height + PAST);
    (0..count).map(|_| r.next() as u16).collect()
}

impl<'a> Filter<'a> {
    /// A block of a plane, with a destination of `under` or of the plane itself; in
    /// part of the cases nothing that isn't examined is a sample.
    pub fn on(plane: &'a Plane, under: &'a [u16], r: &mut Random) -> Self {
        let spot = plane.any_spot(r);
        let (width, height) = (any_side(r), any_side(r));
        let shift = plane.depth - 8;
        let strength = |r: &mut Random, most: u32| match r.below(8) {
            0 | 1 => 0,
            2 => r.pick(&[1, 1, most]),
            3 => (r.between(0, (most >> shift).into()) as u32) << shift,
            _ => r.between(0, most.into()) as u32,
        };
        let (pri_max, sec_max) = strengths_max(plane.depth);
        let (pri, sec) = (strength(r, pri_max), strength(r, sec_max));
        let damping = any_damping(r);
        let (y0, dst) = destination(plane, under, spot.y, height, r);
        let mut block = Block {
            spot,
            width,
            height,
            dir: r.below(8) as u8,
            damping,
        };
        block.spoil_elsewhere(r);
        Filter {
            block,
            dst: Cow::Borrowed(dst),
            y0,
            pri,
            sec,
        }
    }

    /// As `on`, with one number or the other out of range.
    pub fn any(plane: &'a Plane, under: &'a [u16], r: &mut Random) -> Self {
        let mut c = Self::on(plane, under, r);
        c.block.wild(r);
        c.wild(r);
        c
    }

    fn wild(&mut self, r: &mut Random) {
        let s = &self.block.spot;
        let (pri_max, sec_max) = strengths_max(s.depth.clamp(8, 12));
        let (length, wide) = (self.dst.len(), r.pick(&WIDE));
        match r.below(20) {
            0 => self.y0 = wild_size(r, s.y),
            1 => self.dst.to_mut().truncate(length.saturating_sub(s.width)),
            2 => self.dst.to_mut().truncate(length.saturating_sub(1)),
            3 => self.dst.to_mut().push(7),
            4 => self.dst.to_mut().clear(),
            5 => self.pri = r.pick(&[pri_max, pri_max + 1, wide]),
            6 => self.sec = r.pick(&[sec_max, sec_max + 1, wide]),
            7 => self.pri = r.next() as u32,
            8 => self.sec = r.next() as u32,
            _ => {}
        }
    }

    pub fn dst_rows(&self) -> usize {
        let width = self.block.spot.width;
        self.dst.len().checked_div(width).unwrap_or(0)
    }

    /// The numbers of a stored line that stand before the error code.
    pub fn numbers(&self) -> String {
        let b = &self.block;
        let rows = [b.width, b.height, self.y0, self.dst_rows()];
        let rules = [self.pri, self.sec, b.dir.into(), b.damping.into()];
        format!("{} {} {}", b.spot.numbers(), joined(rows), joined(rules))
    }

    pub fn owned(self) -> Filter<'static> {
        Filter {
            block: self.block.owned(),
            dst: Cow::Owned(self.dst.into_owned()),
            ..self
        }
    }
}

/// A first row at or above `y`, and rows that reach the block's end or pass it.
fn destination<'a>(
    plane: &'a Plane,
    under: &'a [u16],
    y: usize,
    block_height: usize,
    r: &mut Random,
) -> (usize, &'a [u16]) {
    let Plane { width, height, .. } = *plane;
    let whole = plane.samples.len() <= SMALL * SMALL || r.below(16) == 0;
    let far = if whole { height } else { 3 };
    let exact = r.below(4) == 0;
    let mut up_to = |most: usize| {
        if exact {
            0
        } else {
            r.below(most as u64 + 1) as usize
        }
    };
    let y0 = y - up_to(y.min(far));
    let reached = (y + block_height).min(height);
    let end = reached + up_to((height + PAST - reached).min(far));
    let rows = y0 * width..end * width;
    if end <= height && r.below(4) == 0 {
        (y0, &plane.samples[rows])
    } else {
        (y0, &under[rows])
    }
}

impl Display for Filter<'_> {
    fn fmt(&self, f: &mut Formatter) -> Result {
        f.write_str(&self.numbers())?;
        self.block.show(f, self.number())
    }
}

/// The whole destination.
impl Case for Filter<'_> {
    type Value = Vec<u16>;

    fn number(&self) -> u32 {
        questions::filter(self)
    }

    fn result(&self) -> Vec<u16> {
        let b = &self.block;
        let s = &b.spot;
        let mut dst = self.dst.to_vec();
        reference::cdef_filter_block(
            &mut dst, self.y0, &s.plane, s.width, s.x, s.y, b.width, b.height, self.pri, self.sec,
            b.dir, b.damping, s.depth,
        );
        dst
    }

    /// The samples that are written: the block on the plane, without its marks.
    fn amount(&self) -> Amount {
        let Block {
            spot,
            width,
            height,
            ..
        } = &self.block;
        let area = spot.area(*width, *height, 0);
        let block = spot.rows(&spot.plane, &area).flatten();
        Amount::samples(block.filter(|&&v| v != MARK).count())
    }

    fn left(&self) -> Vec<u16> {
        self.dst.to_vec()
    }
}
