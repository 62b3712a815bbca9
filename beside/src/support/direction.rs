//! Cases of the direction of a block.

use crate::counts::Amount;
use crate::planes::{DEPTHS, Plane};
use crate::random::Random;
use crate::refusals::{Break, GOOD, Stated, broken, corner_breaks, scan, side_limits, spot_breaks};
use crate::spot::{Area, Spot};
use crate::{Case, questions};
use std::fmt::{Display, Formatter, Result};

#[derive(Clone)]
pub struct Direction<'a>(pub Spot<'a>);

impl<'a> Direction<'a> {
    /// A block of a plane; in part of the cases nothing else there is a sample.
    pub fn on(plane: &'a Plane, r: &mut Random) -> Self {
        let mut c = Direction(plane.any_spot(r));
        let area = c.area();
        c.0.often_spoil_elsewhere(&area, r);
        c
    }

    /// As `on`, with one number or the other out of range.
    pub fn any(plane: &'a Plane, r: &mut Random) -> Self {
        let mut c = Self::on(plane, r);
        c.0.wild(r);
        c.0.wild(r);
        c
    }

    /// What is examined, for a position on the plane.
    pub fn area(&self) -> Area {
        self.0.area(8, 8, 0)
    }

    pub fn owned(self) -> Direction<'static> {
        Direction(self.0.owned())
    }
}

impl Direction<'static> {
    fn at(samples: Vec<u16>, size: (usize, usize), depth: u8, x: usize, y: usize) -> Self {
        Direction(Plane::new(samples, size.0, size.1, depth).spot(x, y)).owned()
    }

    pub fn random(r: &mut Random) -> Self {
        Direction::on(&Plane::small(r), r).owned()
    }

    /// Worked lines, each direction at each depth, and blocks that cross an edge.
    pub fn edges() -> Vec<Self> {
        let r = &mut Random::new(1);
        let flat = vec![130; 64];
        let rows: Vec<u16> = (0..64).map(|i| i / 8 / 4 * 255).collect();
        let columns: Vec<u16> = (0..64).map(|i| i % 8 / 4 * 255).collect();
        let worked = [flat, rows, columns];
        let mut list: Vec<Self> = worked.map(|s| Self::at(s, (8, 8), 8, 0, 0)).into();
        for depth in DEPTHS {
            for wanted in 0..8 {
                list.push(loop {
                    let size = (r.between(8, 11) as usize, r.between(8, 11) as usize);
                    let plane = Plane::random(r, size, depth);
                    let c = Direction::on(&plane, r);
                    if c.result()[0] == wanted {
                        break c.owned();
                    }
                });
            }
            for size in [(1, 1), (1, 9), (9, 1), (7, 8), (8, 7), (9, 9), (24, 20)] {
                let plane = Plane::random(r, size, depth);
                list.push(Direction(plane.spot(0, 0)).owned());
                list.push(Direction(plane.spot(size.0 - 1, size.1 - 1)).owned());
                list.push(Direction::on(&plane, r).owned());
            }
        }
        list
    }

    /// Sides at their limits.
    pub fn limits() -> Vec<Stated<Self>> {
        side_limits(Direction)
    }

    /// The limits, good cases and broken ones.
    pub fn stated() -> Vec<Stated<Self>> {
        [Self::limits(), Self::asked()].concat()
    }

    /// Each failing check, and a scan of the examined samples.
    pub fn asked() -> Vec<Stated<Self>> {
        let r = &mut Random::new(2);
        let good = GOOD.map(|(size, depth, [x, y, ..])| {
            let plane = Plane::random(r, size, depth);
            Direction(plane.spot(x, y)).owned()
        });
        let mut breaks = corner_breaks(|c: &Self| c.area(), |c| &mut c.0);
        let marks = |c: &mut Self| c.0.plane.to_mut().fill(reference::MARK);
        breaks.push(Break::new(9, marks));
        breaks.extend(
            spot_breaks()
                .into_iter()
                .map(|b| b.of_part(|c: &mut Self| &mut c.0)),
        );
        let mut list = broken(&good, &breaks);
        for c in &good {
            let scanned = scan(&c.0, (8, 8), 0, false).into_iter();
            list.extend(scanned.map(|(number, s)| (number, Direction(s))));
        }
        list
    }
}

impl Display for Direction<'_> {
    fn fmt(&self, f: &mut Formatter) -> Result {
        f.write_str(&self.0.numbers())?;
        let number = self.number();
        self.0.show(f, number, &[&self.0.plane], || self.area())
    }
}

/// The direction and the variance.
impl Case for Direction<'_> {
    type Value = [i64; 2];

    fn number(&self) -> u32 {
        questions::direction(self)
    }

    fn result(&self) -> [i64; 2] {
        let s = &self.0;
        let (direction, variance) = reference::cdef_direction(&s.plane, s.width, s.x, s.y, s.depth);
        [direction.into(), variance.into()]
    }

    fn amount(&self) -> Amount {
        Amount::samples(2)
    }
}
