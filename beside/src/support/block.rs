//! A block of a plane for filter and trial: examined with two more samples
//! on each side, marks accepted, along a direction.

use crate::constrain::DAMPING_MAX;
use crate::planes::Plane;
use crate::random::Random;
use crate::refusals::{Break, Stated, corner_breaks, scan, spot_breaks};
use crate::spot::{Area, Spot, WIDE_SIZES, wild_size};
use reference::MARK;
use std::fmt::{Formatter, Result};

#[derive(Clone)]
pub struct Block<'a> {
    pub spot: Spot<'a>,
    pub width: usize,
    pub height: usize,
    pub dir: u8,
    pub damping: u8,
}

/// A block: where it begins, and its sides.
pub(crate) type Place = [usize; 4];

/// A side from 1 to 8, often 8.
pub(crate) fn any_side(r: &mut Random) -> usize {
    r.between(1, 10).min(8) as usize
}

pub(crate) fn any_damping(r: &mut Random) -> u8 {
    let most = r.pick(&[0, 6, 12, DAMPING_MAX, DAMPING_MAX]);
    r.between(0, most.into()) as u8
}

impl<'a> Block<'a> {
    pub(crate) fn at(plane: &'a Plane, place: Place, dir: u8, damping: u8) -> Self {
        let [x, y, width, height] = place;
        Block {
            spot: plane.spot(x, y),
            width,
            height,
            dir,
            damping,
        }
    }

    /// What is examined, for a position on the plane.
    pub fn area(&self) -> Area {
        self.spot.area(self.width, self.height, 2)
    }

    /// In part of the cases nothing that isn't examined is a sample.
    pub(crate) fn spoil_elsewhere(&mut self, r: &mut Random) {
        let area = self.area();
        self.spot.often_spoil_elsewhere(&area, r);
    }

    /// In part of the cases one of the numbers is near or beyond its range.
    pub(crate) fn wild(&mut self, r: &mut Random) {
        self.spot.wild(r);
        match r.below(16) {
            0 => self.width = wild_size(r, 8),
            1 => self.height = wild_size(r, 8),
            2 => self.dir = r.pick(&[7, 8, 9, 16, 255]),
            3 => self.damping = r.pick(&[30, 31, 32, 33, 255]),
            _ => {}
        }
    }

    /// Writes what is examined.
    pub(crate) fn show(&self, f: &mut Formatter, number: u32) -> Result {
        let s = &self.spot;
        s.show(f, number, &[&s.plane], || self.area())
    }

    pub fn owned(self) -> Block<'static> {
        Block {
            spot: self.spot.owned(),
            ..self
        }
    }
}

impl Block<'static> {
    /// 9, of a corner, and 1, 2, 4 and 5.
    pub(crate) fn place_breaks() -> Vec<Break<Self>> {
        let mut list = corner_breaks(|b: &Self| b.area(), |b| &mut b.spot);
        for b in spot_breaks() {
            list.push(b.of_part(|b: &mut Self| &mut b.spot));
        }
        for side in [0, 9, usize::MAX] {
            list.push(Break::new(5, move |b: &mut Self| b.width = side));
            list.push(Break::new(5, move |b: &mut Self| b.height = side));
        }
        for more in WIDE_SIZES {
            list.push(Break::new(5, move |b: &mut Self| b.width += more));
            list.push(Break::new(5, move |b: &mut Self| b.height += more));
        }
        list
    }

    /// 8, and 9 of a centre next to the mark's value.
    pub(crate) fn later_breaks() -> Vec<Break<Self>> {
        let mut list = Vec::new();
        for dir in [8, 9, 15, 255] {
            list.push(Break::new(8, move |b: &mut Self| b.dir = dir));
        }
        for damping in [DAMPING_MAX + 1, 33, 128, 255] {
            list.push(Break::new(8, move |b: &mut Self| b.damping = damping));
        }
        for sample in [MARK - 1, MARK + 1] {
            list.push(Break::new(9, move |b: &mut Self| {
                let s = &mut b.spot;
                s.plane.to_mut()[s.y * s.width + s.x] = sample;
            }));
        }
        list
    }

    /// A case with such a block, with one sample of the plane at or past the end.
    pub(crate) fn scanned<C: Clone>(
        good: &C,
        block: fn(&mut C) -> &mut Block<'static>,
    ) -> Vec<Stated<C>> {
        let b = block(&mut good.clone()).clone();
        let with = |(number, spot)| {
            let mut c = good.clone();
            block(&mut c).spot = spot;
            (number, c)
        };
        let list = scan(&b.spot, (b.width, b.height), 2, true);
        list.into_iter().map(with).collect()
    }
}

/// Dampings and strengths at which marks would count, or a difference of 1 does.
pub(crate) const BESIDE_MARKS: [(u8, (u32, u32)); 5] = [
    (DAMPING_MAX, (1, 0)),
    (DAMPING_MAX, (0, 1)),
    (DAMPING_MAX, (1, 1)),
    (0, (1, 0)),
    (0, (0, 1)),
];

/// Samples next to marks: at damping 31 and strength 1 their difference alone would let
/// them count; for damping 0 samples that differ by 1.
pub(crate) fn beside_marks(depth: u8, damping: u8, r: &mut Random) -> Plane {
    let base = r.between(1, 250) as u16;
    let sample = |k: usize| {
        if k.is_multiple_of(3) {
            base + (k % 2) as u16
        } else {
            MARK
        }
    };
    let mut plane = Plane::new((0..42).map(sample).collect(), 7, 6, depth);
    if damping == 0 {
        plane.samples.fill_with(|| base + r.below(2) as u16);
        plane.samples[r.below(42) as usize] = MARK;
    }
    plane
}

/// The planes of RULES, Worked lines: a row with its fourth sample free or marked, and a
/// square; the position of the block of 1 by 1 in each.
pub(crate) fn worked() -> (Vec<(Plane, Place)>, (Plane, Place)) {
    let row = |fourth| Plane::new(vec![100, 100, 104, fourth, 100], 5, 1, 8);
    let rows = [100, MARK].map(|fourth| (row(fourth), [2, 0, 1, 1]));
    let mut square = Plane::new(vec![101; 25], 5, 5, 8);
    square.samples[12] = 100;
    (rows.into(), (square, [2, 2, 1, 1]))
}
