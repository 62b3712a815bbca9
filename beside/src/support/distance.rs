//! Cases of the two distances of a block: weighted, and the sum of squared differences.

use crate::built::Built;
use crate::planes::{DEPTHS, Plane};
use crate::random::Random;
use crate::refusals::{Break, GOOD, Stated, broken, corner_breaks, scan, side_limits, spot_breaks};
use crate::spot::{Area, Spot};
use crate::{Case, questions};
use reference::MARK;
use std::borrow::Cow;
use std::fmt::{Display, Formatter, Result};
use std::mem::swap;

#[derive(Clone)]
pub struct Distance<'a> {
    /// The position, and the original.
    pub spot: Spot<'a>,
    pub other: Cow<'a, [u16]>,
    pub weighted: bool,
}

impl<'a> Distance<'a> {
    fn new(spot: Spot<'a>, other: &'a [u16], weighted: bool) -> Self {
        Distance {
            spot,
            other: Cow::Borrowed(other),
            weighted,
        }
    }

    /// A block of two planes, most often a whole one where there is one; in part of the
    /// cases nothing else there is a sample.
    pub fn on(plane: &'a Plane, other: &'a [u16], weighted: bool, r: &mut Random) -> Self {
        let mut spot = plane.any_spot(r);
        if r.below(8) != 0 {
            spot.x = spot.x.min(plane.width.saturating_sub(8));
            spot.y = spot.y.min(plane.height.saturating_sub(8));
        }
        let mut c = Self::new(spot, other, weighted);
        let area = c.area();
        c.both(|s| s.often_spoil_elsewhere(&area, r));
        c
    }

    /// As `on`, with one number or the other out of range.
    pub fn any(plane: &'a Plane, other: &'a [u16], weighted: bool, r: &mut Random) -> Self {
        let mut c = Self::on(plane, other, weighted, r);
        c.both(|s| s.wild(r));
        c
    }

    pub fn planes(&self) -> [&[u16]; 2] {
        [&self.spot.plane, &self.other]
    }

    /// What is examined, for a position on the plane.
    pub fn area(&self) -> Area {
        self.spot.area(8, 8, 0)
    }

    /// Whether the block lies whole in the plane.
    pub fn is_whole(&self) -> bool {
        let Spot { width, height, .. } = self.spot;
        width >= 8 && height >= 8 && self.spot.x <= width - 8 && self.spot.y <= height - 8
    }

    /// Exchanges the planes.
    fn turn(&mut self) {
        swap(&mut self.spot.plane, &mut self.other);
    }

    /// Does it to the position on the other plane, then on the original.
    fn both(&mut self, mut change: impl FnMut(&mut Spot<'a>)) {
        for _ in 0..2 {
            self.turn();
            change(&mut self.spot);
        }
    }

    pub fn owned(self) -> Distance<'static> {
        Distance {
            spot: self.spot.owned(),
            other: Cow::Owned(self.other.into_owned()),
            ..self
        }
    }
}

impl Distance<'static> {
    /// The position (x, y) of a plane and of another one like it.
    fn at(plane: &Plane, x: usize, y: usize, weighted: bool, r: &mut Random) -> Self {
        let other = plane.other(r);
        Distance::new(plane.spot(x, y), &other, weighted).owned()
    }

    fn flat(side: usize, samples: [u16; 2], depth: u8, weighted: bool) -> Self {
        let [plane, other] = samples.map(|v| Plane::new(vec![v; side * side], side, side, depth));
        Distance::new(plane.spot(0, 0), &other.samples, weighted).owned()
    }

    pub fn built(built: &Built) -> Self {
        let [original, other] = [built.original, built.other].map(|b| b.map(|v| v as u16));
        let plane = Plane::new(original.to_vec(), 8, 8, 12);
        Distance::new(plane.spot(0, 0), &other, true).owned()
    }

    pub fn random(weighted: bool, r: &mut Random) -> Self {
        let plane = Plane::small(r);
        let other = plane.other(r);
        Distance::on(&plane, &other, weighted, r).owned()
    }

    /// Worked lines, the ends of the range, whole blocks and blocks that cross an edge, and
    /// blocks built to show how the steps are rounded.
    pub fn edges(weighted: bool) -> Vec<Self> {
        let r = &mut Random::new(7);
        let mut list = vec![
            Self::flat(8, [100, 101], 8, weighted),
            Self::flat(8, [400, 404], 10, weighted),
            Self::flat(4, [100, 101], 8, weighted),
        ];
        for depth in DEPTHS {
            let most = (1 << depth) - 1;
            list.push(Self::flat(8, [0, most], depth, weighted));
            list.push(Self::flat(8, [most, 0], depth, weighted));
            list.push(Self::flat(3, [most, 0], depth, weighted));
            let mut ends = Self::flat(8, [most, 0], depth, weighted);
            ends.spot.plane.to_mut()[32..].fill(0);
            list.push(ends.clone());
            ends.other.to_mut()[..32].fill(most);
            list.push(ends);
            for size in [(1, 1), (1, 9), (9, 1), (7, 8), (8, 7), (9, 9), (20, 12)] {
                let plane = Plane::random(r, size, depth);
                list.push(Self::at(&plane, 0, 0, weighted, r));
                list.push(Self::at(&plane, size.0 - 1, size.1 - 1, weighted, r));
            }
        }
        if weighted {
            list.extend((0..30).map(|_| Self::built(&Built::under_top(r))));
            list.extend((0..30).map(|_| Self::built(&Built::loud(r))));
        }
        list
    }

    /// Sides at their limits.
    pub fn limits(weighted: bool) -> Vec<Stated<Self>> {
        side_limits(|spot| Distance {
            other: Cow::Owned(spot.plane.iter().map(|v| v ^ 1).collect()),
            spot,
            weighted,
        })
    }

    /// The limits, good cases and broken ones.
    pub fn stated(weighted: bool) -> Vec<Stated<Self>> {
        [Self::limits(weighted), Self::asked(weighted)].concat()
    }

    /// Each failing check, of either plane, and scans of the examined samples.
    pub fn asked(weighted: bool) -> Vec<Stated<Self>> {
        let r = &mut Random::new(8);
        let good = GOOD.map(|(size, depth, [x, y, ..])| {
            let plane = Plane::random(r, size, depth);
            Self::at(&plane, x, y, weighted, r)
        });
        let mut list = broken(&good, &Self::breaks());
        for c in &good {
            list.extend(Self::scanned(c));
            let mut turned = c.clone();
            turned.turn();
            for (number, mut broken) in Self::scanned(&turned) {
                broken.turn();
                list.push((number, broken));
            }
        }
        list
    }

    fn scanned(c: &Self) -> Vec<Stated<Self>> {
        let with = |(number, spot)| (number, Distance { spot, ..c.clone() });
        let list = scan(&c.spot, (8, 8), 0, false);
        list.into_iter().map(with).collect()
    }

    /// Of the original, then of the other plane.
    fn breaks() -> Vec<Break<Self>> {
        let breaks = || {
            let mut list = corner_breaks(|c: &Self| c.area(), |c| &mut c.spot);
            let marks = |c: &mut Self| c.spot.plane.to_mut().fill(MARK);
            list.push(Break::new(9, marks));
            let of_spot = |b: Break<Spot<'static>>| b.of_part(|c: &mut Self| &mut c.spot);
            list.extend(spot_breaks().into_iter().map(of_spot));
            list
        };
        let mut list = breaks();
        for b in breaks() {
            if matches!(b.number, 4 | 9) {
                list.push(b.turned(Self::turn));
            }
        }
        list
    }
}

impl Display for Distance<'_> {
    fn fmt(&self, f: &mut Formatter) -> Result {
        f.write_str(&self.spot.numbers())?;
        let number = self.number();
        self.spot.show(f, number, &self.planes(), || self.area())
    }
}

impl Case for Distance<'_> {
    type Value = i64;

    fn number(&self) -> u32 {
        questions::distance(self)
    }

    fn result(&self) -> i64 {
        let Spot {
            width,
            height,
            x,
            y,
            depth,
            ..
        } = self.spot;
        let [original, other] = self.planes();
        if self.weighted {
            reference::cdef_dist_8x8(original, other, width, height, x, y, depth)
        } else {
            reference::block_sse_8x8(original, other, width, height, x, y)
        }
    }
}
