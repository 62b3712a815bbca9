//! Cases of the trial of a block.

use crate::adjust_pri::{AdjustPri, VARIANCE_MAX};
use crate::block::{BESIDE_MARKS, Block, Place, any_damping, any_side, beside_marks, worked};
use crate::constrain::DAMPING_MAX;
use crate::counts::Amount;
use crate::planes::{DEPTHS, Plane};
use crate::random::Random;
use crate::refusals::{Break, GOOD, Stated, broken, side_limits};
use crate::{Case, joined, questions};
use std::fmt::{Display, Formatter, Result};

/// Elements of twelve trial blocks.
pub const PLACES: usize = 768;

#[derive(Clone)]
pub struct Trial<'a> {
    pub block: Block<'a>,
    /// 1 by luma's rules, 0 by chroma's.
    pub luma: u8,
    pub variance: u32,
    /// The list's length; before the call element k holds `held` + k * `step`.
    pub places: usize,
    pub held: u16,
    pub step: u16,
}

impl<'a> Trial<'a> {
    fn new(block: Block<'a>, luma: u8, variance: u32) -> Self {
        Trial {
            block,
            luma,
            variance,
            places: PLACES,
            held: 50_000,
            step: 0,
        }
    }

    /// A block of a plane, a third of them small, by the rules given or by any; in part of
    /// the cases nothing that isn't examined is a sample.
    pub fn on(plane: &'a Plane, luma: Option<u8>, r: &mut Random) -> Self {
        let most = r.pick(&[4, 8, 8]);
        let mut block = Block {
            spot: plane.any_spot(r),
            width: any_side(r).min(most),
            height: any_side(r).min(most),
            dir: r.below(8) as u8,
            damping: any_damping(r),
        };
        block.spoil_elsewhere(r);
        let luma = luma.unwrap_or_else(|| r.below(2) as u8);
        let mut c = Self::new(block, luma, any_variance(luma, r));
        c.held = r.next() as u16;
        c
    }

    /// As `on`, by the rules given, with a list that holds different numbers.
    pub fn on_list(plane: &'a Plane, luma: u8, r: &mut Random) -> Self {
        let step = r.pick(&[0, 1, 12_345]);
        Trial {
            step,
            ..Self::on(plane, Some(luma), r)
        }
    }

    /// As `on_list`, with one number or the other out of range.
    pub fn any(plane: &'a Plane, luma: u8, r: &mut Random) -> Self {
        let mut c = Self::on_list(plane, luma, r);
        c.block.wild(r);
        match r.below(12) {
            0 => c.places = r.pick(&[PLACES - 1, PLACES + 1, 0, 64, 192]),
            1 => c.variance = r.pick(&[VARIANCE_MAX, VARIANCE_MAX + 1, u32::MAX]),
            2 => c.variance = r.next() as u32,
            _ => {}
        }
        c
    }

    /// The list before the call.
    pub fn before(&self) -> Vec<u16> {
        let place = |k: usize| self.held.wrapping_add(self.step.wrapping_mul(k as u16));
        (0..self.places).map(place).collect()
    }

    /// The numbers of a stored line that stand before the error code.
    pub fn numbers(&self) -> String {
        let b = &self.block;
        let rules = [
            self.luma.into(),
            self.variance,
            b.dir.into(),
            b.damping.into(),
        ];
        let list = [self.places, self.held.into()];
        let sides = [b.width, b.height];
        joined([b.spot.numbers(), joined(sides), joined(rules), joined(list)])
    }

    pub fn owned(self) -> Trial<'static> {
        Trial {
            block: self.block.owned(),
            ..self
        }
    }
}

/// A variance of any size; by chroma's rules any number.
fn any_variance(luma: u8, r: &mut Random) -> u32 {
    match r.below(8) {
        0 => 0,
        1 if luma == 0 => r.next() as u32,
        _ => AdjustPri::random(r).variance,
    }
}

impl Trial<'static> {
    fn at(plane: &Plane, place: Place, dir: u8, damping: u8, luma: u8, variance: u32) -> Self {
        Trial::new(Block::at(plane, place, dir, damping), luma, variance).owned()
    }

    pub fn random(r: &mut Random) -> Self {
        let plane = Plane::small(r).marked(r);
        Trial::on(&plane, None, r).owned()
    }

    /// Worked lines, marks that a large damping would let count, every block size,
    /// every way of crossing an edge, and the variances where the adjusted primary steps.
    pub fn edges() -> Vec<Self> {
        let r = &mut Random::new(5);
        let (rows, (square, centre)) = worked();
        let mut list = Vec::new();
        for (row, place) in rows {
            list.push(Self::at(&row, place, 2, 3, 0, 0));
        }
        for dir in 0..8 {
            list.push(Self::at(&square, centre, dir, 3, 0, VARIANCE_MAX + 1));
        }
        for depth in DEPTHS {
            for (damping, _) in BESIDE_MARKS {
                let plane = beside_marks(depth, damping, r);
                let (place, dir) = ([1, 1, 4, 3], r.below(8) as u8);
                list.push(Self::at(&plane, place, dir, damping, 1, VARIANCE_MAX));
            }
        }
        for k in 0..64 {
            let plane = Plane::random(r, (12, 11), 8 + (k % 5) as u8).marked(r);
            let place = [k % 5, k % 4, k % 8 + 1, k / 8 + 1];
            let (dir, luma) = ((k % 7) as u8, (k / 8 % 2) as u8);
            let variance = any_variance(luma, r);
            list.push(Self::at(&plane, place, dir, (k % 32) as u8, luma, variance));
        }
        for depth in DEPTHS {
            let plane = Plane::random(r, (7, 6), depth);
            for (k, y) in [0, 1, 5].into_iter().enumerate() {
                for (j, x) in [0, 1, 6].into_iter().enumerate() {
                    let dir = (3 * k + j) as u8 & 7;
                    list.push(Self::at(&plane, [x, y, 4, 3], dir, 5, 0, 0));
                }
            }
            for variance in [0, 63, 64, 1023, 1024, VARIANCE_MAX] {
                let plane = Plane::random(r, (8, 8), depth);
                let dir = r.between(1, 7) as u8;
                list.push(Self::at(&plane, [2, 2, 3, 3], dir, 6, 1, variance));
            }
        }
        list
    }

    /// Sides at their limits.
    pub fn limits() -> Vec<Stated<Self>> {
        side_limits(|spot| {
            let block = Block {
                spot,
                width: 3,
                height: 3,
                dir: 7,
                damping: DAMPING_MAX,
            };
            Trial::new(block, 1, VARIANCE_MAX)
        })
    }

    /// The limits, good cases and broken ones.
    pub fn stated() -> Vec<Stated<Self>> {
        [Self::limits(), Self::asked()].concat()
    }

    /// Each failing check, a scan of the examined samples, and variances that chroma's
    /// rules don't read.
    pub fn asked() -> Vec<Stated<Self>> {
        let r = &mut Random::new(6);
        let good = GOOD.map(|(size, depth, place)| {
            let plane = Plane::random(r, size, depth).marked(r);
            Self::at(&plane, place, 7, DAMPING_MAX, 1, VARIANCE_MAX)
        });
        let mut list = broken(&good, &Self::breaks());
        for c in &good {
            list.extend(Block::scanned(c, |c| &mut c.block));
            for variance in OFF_VARIANCES {
                let mut chroma = c.clone();
                (chroma.luma, chroma.variance) = (0, variance);
                list.push((0, chroma));
            }
        }
        list
    }

    fn breaks() -> Vec<Break<Self>> {
        type T = Trial<'static>;
        let of_block = |b: Break<Block<'static>>| b.of_part(|c: &mut T| &mut c.block);
        let mut list: Vec<_> = Block::place_breaks().into_iter().map(of_block).collect();
        for places in [0, 1, 64, 767, 769, 1024, 2 * PLACES, PLACES + 65_536] {
            list.push(Break::new(7, move |c: &mut T| c.places = places));
        }
        for variance in OFF_VARIANCES {
            list.push(Break::new(8, move |c: &mut T| c.variance = variance));
        }
        list.extend(Block::later_breaks().into_iter().map(of_block));
        list
    }
}

/// Variances that luma's rules reject.
const OFF_VARIANCES: [u32; 4] = [VARIANCE_MAX + 1, 1 << 20, 1 << 31, u32::MAX];

impl Display for Trial<'_> {
    fn fmt(&self, f: &mut Formatter) -> Result {
        f.write_str(&self.numbers())?;
        self.block.show(f, self.number())
    }
}

/// The whole list.
impl Case for Trial<'_> {
    type Value = Vec<u16>;

    fn number(&self) -> u32 {
        questions::trial(self)
    }

    fn result(&self) -> Vec<u16> {
        let b = &self.block;
        let s = &b.spot;
        let mut list = self.before();
        let mut trial = [[0; 64]; 12];
        for (place, &v) in trial.as_flattened_mut().iter_mut().zip(&list) {
            *place = v.into();
        }
        let variance = (self.luma == 1).then_some(self.variance);
        reference::cdef_block_candidates(
            &s.plane, s.width, s.x, s.y, b.width, b.height, b.dir, variance, b.damping, s.depth,
            &mut trial,
        );
        for (v, &place) in list.iter_mut().zip(trial.as_flattened()) {
            *v = place as u16;
        }
        list
    }

    /// The twelve blocks, without the later elements of their 64.
    fn amount(&self) -> Amount {
        Amount::samples(12 * self.block.width * self.block.height)
    }

    fn left(&self) -> Vec<u16> {
        self.before()
    }
}
