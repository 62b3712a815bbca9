//! A position on a plane, and the samples examined around it.

use crate::joined;
use crate::planes::{SIDE_MAX, SMALL};
use crate::random::Random;
use reference::MARK;
use std::borrow::Cow;
use std::fmt::{Formatter, Result};
use std::ops::Range;

/// Added to a size, these are lost in a narrower type.
pub(crate) const WIDE_SIZES: [usize; 4] = [1 << 8, 1 << 16, 1 << 32, 1 << 63];

/// A position on a plane that is passed to a call.
#[derive(Clone)]
pub struct Spot<'a> {
    pub plane: Cow<'a, [u16]>,
    pub width: usize,
    pub height: usize,
    pub depth: u8,
    pub x: usize,
    pub y: usize,
}

/// The examined samples, as rows and columns of the plane.
pub struct Area {
    pub rows: Range<usize>,
    pub columns: Range<usize>,
}

impl Spot<'_> {
    /// A block from the position on, widened on each side and cropped to the plane. Only
    /// for a position on the plane.
    pub fn area(&self, block_width: usize, block_height: usize, widened: usize) -> Area {
        let along = |at: usize, length: usize, side: usize| {
            at.saturating_sub(widened)..(at + length + widened).min(side)
        };
        Area {
            rows: along(self.y, block_height, self.height),
            columns: along(self.x, block_width, self.width),
        }
    }

    /// The rows of the area's samples, of this plane or of another one of its size.
    pub fn rows<'p>(&self, plane: &'p [u16], area: &Area) -> impl Iterator<Item = &'p [u16]> {
        let (width, columns) = (self.width, area.columns.clone());
        let row = move |y| &plane[y * width..][columns.clone()];
        area.rows.clone().map(row)
    }

    /// The numbers with which a stored line begins.
    pub fn numbers(&self) -> String {
        joined([
            usize::from(self.depth),
            self.width,
            self.height,
            self.x,
            self.y,
        ])
    }

    /// Writes what is examined, of each plane, where validation went that far.
    pub(crate) fn show(
        &self,
        f: &mut Formatter,
        number: u32,
        planes: &[&[u16]],
        area: impl Fn() -> Area,
    ) -> Result {
        if !matches!(number, 0 | 9) {
            return Ok(());
        }
        for plane in planes {
            let area = area();
            let samples = self.rows(plane, &area).flatten();
            write!(f, ", examined {}", joined(samples))?;
        }
        Ok(())
    }

    /// In a quarter of the cases.
    pub(crate) fn often_spoil_elsewhere(&mut self, area: &Area, r: &mut Random) {
        if r.below(4) == 0 {
            self.spoil_elsewhere(area, r);
        }
    }

    /// Numbers that are no samples wherever the area does not reach.
    pub fn spoil_elsewhere(&mut self, area: &Area, r: &mut Random) {
        let mut spoilt = vec![u16::MAX; self.plane.len()];
        if r.below(2) == 0 && spoilt.len() <= SMALL * SMALL {
            let lowest = 1 << self.depth;
            spoilt.fill_with(|| r.between(lowest, 65_535) as u16);
        }
        for y in area.rows.clone() {
            let row = y * self.width;
            let part = row + area.columns.start..row + area.columns.end;
            spoilt[part.clone()].copy_from_slice(&self.plane[part]);
        }
        self.plane = Cow::Owned(spoilt);
    }

    pub fn owned(self) -> Spot<'static> {
        Spot {
            plane: Cow::Owned(self.plane.into_owned()),
            ..self
        }
    }

    /// In part of the cases one of the numbers is near or beyond its range.
    pub fn wild(&mut self, r: &mut Random) {
        let side = [0, 1, SIDE_MAX, SIDE_MAX + 1];
        match r.below(24) {
            0 => self.depth = r.next() as u8,
            1 => self.depth = r.pick(&[6, 7, 8, 12, 13]),
            2 => self.width = r.pick(&side),
            3 => self.height = r.pick(&side),
            4 => self.width = wild_size(r, self.width),
            5 => self.height = wild_size(r, self.height),
            6 => self.x = wild_size(r, self.width),
            7 => self.y = wild_size(r, self.height),
            8 => self.plane.to_mut().push(0),
            9 => self.plane.to_mut().truncate(r.below(400) as usize),
            _ => {}
        }
        if r.below(6) == 0 && !self.plane.is_empty() {
            let at = r.below(self.plane.len() as u64) as usize;
            let sample = r.pick(&[255, 256, 1024, 4095, 4096, 16_383, MARK, 16_385, 65_535]);
            self.plane.to_mut()[at] = sample;
        }
    }
}

/// Near a size, or anything.
pub(crate) fn wild_size(r: &mut Random, near: usize) -> usize {
    match r.below(5) {
        0 => near.wrapping_add(1),
        1 => near.wrapping_sub(1),
        2 => near.wrapping_add(r.pick(&WIDE_SIZES)),
        3 => r.of_bits(64) as usize,
        _ => r.pick(&[0, usize::MAX - 1, usize::MAX]),
    }
}
