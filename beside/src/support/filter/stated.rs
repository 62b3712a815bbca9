//! Chosen cases of the block filter, and its rejected calls.

use super::{Filter, destination, strengths_max, under};
use crate::WIDE;
use crate::block::{BESIDE_MARKS, Block, Place, beside_marks, worked};
use crate::constrain::DAMPING_MAX;
use crate::planes::{DEPTHS, Plane};
use crate::random::Random;
use crate::refusals::{Break, GOOD, Stated, broken, last_spot, side_limits};
use crate::spot::Spot;
use std::borrow::Cow;

impl Filter<'static> {
    /// A block of a plane, with a destination at random.
    fn at(
        plane: &Plane,
        place: Place,
        (pri, sec): (u32, u32),
        dir: u8,
        damping: u8,
        r: &mut Random,
    ) -> Self {
        let under = under(plane, r);
        let (y0, dst) = destination(plane, &under, place[1], place[3], r);
        let c = Filter {
            block: Block::at(plane, place, dir, damping),
            dst: Cow::Borrowed(dst),
            y0,
            pri,
            sec,
        };
        c.owned()
    }

    pub fn random(r: &mut Random) -> Self {
        let plane = Plane::small(r).marked(r);
        let under = under(&plane, r);
        Filter::on(&plane, &under, r).owned()
    }

    /// Worked lines, marks that a large damping would let count, every block size,
    /// every way of crossing an edge, and the ends of the strengths.
    pub fn edges() -> Vec<Self> {
        let r = &mut Random::new(3);
        let (rows, (square, centre)) = worked();
        let mut list = Vec::new();
        for (row, place) in rows {
            list.push(Self::at(&row, place, (4, 0), 2, 3, r));
        }
        for dir in 0..8 {
            list.push(Self::at(&square, centre, (4, 2), dir, 3, r));
        }
        for depth in DEPTHS {
            for (damping, forces) in BESIDE_MARKS {
                let plane = beside_marks(depth, damping, r);
                let dir = r.below(8) as u8;
                list.push(Self::at(&plane, [0, 0, 7, 6], forces, dir, damping, r));
            }
        }
        for k in 0..64 {
            let plane = Plane::random(r, (12, 11), 8 + (k % 5) as u8).marked(r);
            let place = [k % 5, k % 4, k % 8 + 1, k / 8 + 1];
            let (pri, sec) = strengths_max(plane.depth);
            let some = |r: &mut Random, most: u32| r.between(1, most.into()) as u32;
            let forces = (some(r, pri), some(r, sec));
            let (dir, damping) = ((k % 7) as u8, (k % 32) as u8);
            list.push(Self::at(&plane, place, forces, dir, damping, r));
        }
        for depth in DEPTHS {
            let plane = Plane::random(r, (11, 10), depth);
            let (pri, sec) = strengths_max(depth);
            for (k, y) in [0, 1, 9].into_iter().enumerate() {
                for (j, x) in [0, 1, 10].into_iter().enumerate() {
                    let (dir, forces) = ((3 * k + j) as u8 & 7, (pri / 2, sec / 2));
                    list.push(Self::at(&plane, [x, y, 8, 8], forces, dir, 5, r));
                }
            }
            for forces in [(0, 0), (pri, 0), (0, sec), (pri, sec), (1, 1)] {
                let plane = Plane::random(r, (8, 8), depth);
                let dir = r.below(8) as u8;
                list.push(Self::at(&plane, [2, 2, 4, 4], forces, dir, 6, r));
            }
        }
        for size in [(24, 20), (40, 3), (3, 40)] {
            let plane = Plane::random(r, size, 8);
            let place = [size.0 - 3, size.1 - 3, 8, 8];
            list.push(Self::at(&plane, place, (4, 2), 1, 4, r));
        }
        list
    }

    /// Sides, destinations and strengths at their limits, with planes that fit.
    pub fn limits() -> Vec<Stated<Self>> {
        let of = |spot: Spot<'static>| Filter {
            dst: Cow::Owned(vec![9; spot.width * spot.height.min(1)]),
            y0: spot.y,
            block: Block {
                spot,
                width: 8,
                height: 8,
                dir: 7,
                damping: DAMPING_MAX,
            },
            pri: 15,
            sec: 4,
        };
        let mut from_the_top = of(last_spot(6, 7));
        from_the_top.y0 = 0;
        from_the_top.dst = Cow::Owned(vec![65_535; 6 * 7]);
        let mut past_the_plane = of(last_spot(6, 7));
        past_the_plane.dst = Cow::Owned(vec![65_535; 6 * 5]);
        let mut list = side_limits(of);
        list.push((0, of(last_spot(1, 1))));
        list.push((0, from_the_top));
        list.push((0, past_the_plane));
        list
    }

    /// The limits, good cases and broken ones.
    pub fn stated() -> Vec<Stated<Self>> {
        [Self::limits(), Self::asked()].concat()
    }

    /// Each failing check, and a scan of the examined samples.
    pub fn asked() -> Vec<Stated<Self>> {
        let r = &mut Random::new(4);
        let good = GOOD.map(|(size, depth, place)| {
            let plane = Plane::random(r, size, depth).marked(r);
            Self::at(&plane, place, strengths_max(depth), 7, DAMPING_MAX, r)
        });
        let mut list = broken(&good, &Self::breaks());
        for c in &good {
            list.extend(Block::scanned(c, |c| &mut c.block));
        }
        list
    }

    fn breaks() -> Vec<Break<Self>> {
        type F = Filter<'static>;
        let of_block = |b: Break<Block<'static>>| b.of_part(|c: &mut F| &mut c.block);
        let mut list: Vec<_> = Block::place_breaks().into_iter().map(of_block).collect();
        list.push(Break::new(6, |c: &mut F| c.y0 = c.block.spot.y + 1));
        list.push(Break::new(6, |c: &mut F| c.y0 = usize::MAX));
        list.push(Break::new(6, |c: &mut F| {
            c.y0 = c.y0.wrapping_sub(c.dst_rows())
        }));
        list.push(Break::new(6, |c: &mut F| c.dst.to_mut().clear()));
        list.push(Break::new(6, |c: &mut F| c.dst.to_mut().push(5)));
        list.push(Break::new(6, |c: &mut F| {
            c.dst.to_mut().pop();
        }));
        list.push(Break::new(6, |c: &mut F| {
            let Block { spot, height, .. } = &c.block;
            let reached = (spot.y + height).min(spot.height);
            let short = (reached - c.y0 - 1) * spot.width;
            c.dst.to_mut().truncate(short);
        }));
        list.push(Break::new(8, |c: &mut F| c.pri += 1));
        list.push(Break::new(8, |c: &mut F| c.sec += 1));
        for strength in WIDE {
            list.push(Break::new(8, move |c: &mut F| c.pri = strength));
            list.push(Break::new(8, move |c: &mut F| c.sec = strength));
        }
        list.extend(Block::later_breaks().into_iter().map(of_block));
        list
    }
}
