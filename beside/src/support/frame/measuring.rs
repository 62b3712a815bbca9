//! Cases of measuring.

use super::comparing::{BUILT, Compared};
use super::drawn::{Drawn, PAIRS, What, pair};
use super::stated::FrameCase;
use super::{DampingChoice, Kind, Size, breaks, questions};
use crate::Case;
use crate::counts::Amount;
use crate::random::Random;
use crate::refusals::{Break, of_parts};
use std::fmt::{Display, Formatter, Result};

#[derive(Clone, PartialEq)]
pub struct Measuring {
    pub compared: Compared,
    pub primary: u8,
    pub secondary: u8,
    /// One per unit, before the call, and the scratch.
    pub totals: Vec<i64>,
    pub scratch: Vec<u16>,
}

impl Measuring {
    /// With a pair; totals and scratch hold any numbers.
    pub fn new(compared: Compared, (primary, secondary): (u8, u8), r: &mut Random) -> Self {
        Measuring {
            totals: r.list(compared.picture.size.units()),
            scratch: r.list(compared.picture.scratch()),
            compared,
            primary,
            secondary,
        }
    }
}

impl Display for Measuring {
    fn fmt(&self, f: &mut Formatter) -> Result {
        let (primary, secondary) = (self.primary, self.secondary);
        let (totals, scratch) = (self.totals.len(), self.scratch.len());
        write!(f, "{}, pair {primary} {secondary}", self.compared)?;
        write!(f, ", {totals} totals, scratch of {scratch}")
    }
}

/// The totals, and the scratch.
impl Case for Measuring {
    type Value = (Vec<i64>, Vec<u16>);

    fn number(&self) -> u32 {
        questions::measuring(self)
    }

    fn result(&self) -> Self::Value {
        let c = &self.compared;
        let (_, measure, _) = c.picture.kind.rust();
        let (primary, secondary) = (self.primary, self.secondary);
        let totals = measure(&c.frame(), &c.plane, &c.original, primary, secondary);
        (totals, vec![0; self.scratch.len()])
    }

    fn amount(&self) -> Amount {
        Amount {
            scratch: self.scratch.len(),
            ..Amount::totals(self.totals.len())
        }
    }

    fn left(&self) -> Self::Value {
        (self.totals.clone(), self.scratch.clone())
    }
}

impl FrameCase for Measuring {
    fn drawn(d: &Drawn, kind: Kind) -> Self {
        let compared = Compared::drawn(d, kind);
        Self::new(compared, d.pair(), &mut d.random(kind, What::Lists))
    }

    fn edges(r: &mut Random) -> Vec<Self> {
        let built = |k| Self::new(Compared::built(k, r), (0, 0), r);
        (0..BUILT).map(built).collect()
    }

    fn size(&self) -> Size {
        self.compared.picture.size
    }

    fn damping(&self) -> Option<DampingChoice> {
        Some(self.compared.picture.damping)
    }

    fn pairs(&self) -> Vec<(u8, u8)> {
        vec![(self.primary, self.secondary)]
    }

    fn filters(&self, block: usize) -> bool {
        (self.primary, self.secondary) != (0, 0) && self.compared.counts(block)
    }

    fn breaks(kind: Kind) -> Vec<Break<Self>> {
        type C = Measuring;
        let mut list = of_parts(Compared::breaks(kind), |c: &mut C| &mut c.compared);
        list.extend(breaks::lengths(7, |c: &mut C| &mut c.totals));
        list.extend(breaks::lengths(7, |c: &mut C| &mut c.scratch));
        let twelve_a_unit = |c: &mut C| c.totals.resize(12 * c.totals.len(), 0);
        list.push(Break::new(7, twelve_a_unit));
        let whole_plane = |c: &mut C| c.scratch.resize(c.compared.plane.len() + 1, 0);
        list.push(Break::new(7, whole_plane));
        list.extend(breaks::numbers(
            8,
            |c: &mut C| &mut c.primary,
            &breaks::PRIMARIES,
        ));
        list.extend(breaks::numbers(
            8,
            |c: &mut C| &mut c.secondary,
            &breaks::SECONDARIES,
        ));
        list
    }

    /// And every pair.
    fn scans(&self) -> Vec<Break<Self>> {
        let mut list = of_parts(self.compared.scans(), |c: &mut Self| &mut c.compared);
        for number in 0..PAIRS {
            list.push(Break::new(0, move |c: &mut Self| {
                (c.primary, c.secondary) = pair(number);
            }));
        }
        list
    }

    fn spoil_sample(&mut self, r: &mut Random) {
        self.compared.spoil_sample(r);
    }
}
