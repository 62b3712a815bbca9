//! Cases of trying.

use super::comparing::{BUILT, Compared};
use super::drawn::{Drawn, What};
use super::stated::FrameCase;
use super::{DampingChoice, Kind, Size, breaks, map, questions};
use crate::Case;
use crate::counts::Amount;
use crate::random::Random;
use crate::refusals::{Break, of_parts};
use reference::Frame;
use std::fmt::{Display, Formatter, Result};

#[derive(Clone, PartialEq)]
pub struct Trying {
    pub compared: Compared,
    /// Twelve per unit, before the call.
    pub totals: Vec<i64>,
}

impl Display for Trying {
    fn fmt(&self, f: &mut Formatter) -> Result {
        write!(f, "{}, {} totals", self.compared, self.totals.len())
    }
}

/// The totals.
impl Case for Trying {
    type Value = Vec<i64>;

    fn number(&self) -> u32 {
        questions::trying(self)
    }

    fn result(&self) -> Vec<i64> {
        self.tried(&self.compared.frame())
    }

    fn amount(&self) -> Amount {
        Amount::totals(self.totals.len())
    }

    fn left(&self) -> Vec<i64> {
        self.totals.clone()
    }
}

impl Trying {
    /// Totals hold any numbers.
    fn new(compared: Compared, r: &mut Random) -> Self {
        Trying {
            totals: r.list(12 * compared.picture.size.units()),
            compared,
        }
    }

    /// The reference's totals.
    fn tried(&self, frame: &Frame) -> Vec<i64> {
        let c = &self.compared;
        let (try_all, _, _) = c.picture.kind.rust();
        try_all(frame, &c.plane, &c.original).into_flattened()
    }
}

impl FrameCase for Trying {
    fn drawn(d: &Drawn, kind: Kind) -> Self {
        let compared = Compared::drawn(d, kind);
        Self::new(compared, &mut d.random(kind, What::Lists))
    }

    /// Trial 0 is the plane as it stands.
    fn edges(r: &mut Random) -> Vec<Self> {
        let built = |k| Self::new(Compared::built(k, r), r);
        (0..BUILT).map(built).collect()
    }

    fn size(&self) -> Size {
        self.compared.picture.size
    }

    fn damping(&self) -> Option<DampingChoice> {
        Some(self.compared.picture.damping)
    }

    fn by_other_map(&self, due: &Vec<i64>) -> Amount {
        let other = map::with_other(self.compared.frame()).map(|frame| self.tried(&frame));
        Amount {
            totals_by_map: other.map_or(0, |other| map::apart(due, &other)),
            ..Amount::default()
        }
    }

    fn breaks(kind: Kind) -> Vec<Break<Self>> {
        let mut list = of_parts(Compared::breaks(kind), |c: &mut Self| &mut c.compared);
        list.extend(breaks::lengths(7, |c: &mut Self| &mut c.totals));
        let one_a_unit = |c: &mut Self| c.totals.truncate(c.totals.len() / 12);
        list.push(Break::new(7, one_a_unit));
        list
    }

    fn scans(&self) -> Vec<Break<Self>> {
        of_parts(self.compared.scans(), |c: &mut Self| &mut c.compared)
    }

    fn spoil_sample(&mut self, r: &mut Random) {
        self.compared.spoil_sample(r);
    }
}
