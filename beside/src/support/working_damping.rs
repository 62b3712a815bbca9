//! Cases of the working damping of a luma or a chroma plane.

use crate::planes::DEPTHS;
use crate::refusals::{Break, Stated, broken};
use crate::{Case, questions};
use std::fmt::{Display, Formatter, Result};

#[derive(Clone, Copy)]
pub struct WorkingDamping {
    pub chroma: bool,
    pub signalled: u8,
    pub depth: u8,
}

impl WorkingDamping {
    pub fn new(chroma: bool, signalled: u8, depth: u8) -> Self {
        WorkingDamping {
            chroma,
            signalled,
            depth,
        }
    }

    /// Every signalled damping and every depth, in range or not.
    pub fn all(chroma: bool) -> impl Iterator<Item = Self> {
        let of = move |signalled| (0..=255).map(move |depth| Self::new(chroma, signalled, depth));
        (0..=255).flat_map(of)
    }

    /// Every accepted case, and each with a depth, a signalled damping or both out of range.
    pub fn stated(chroma: bool) -> Vec<Stated<Self>> {
        let of = |depth| (3..=6).map(move |signalled| Self::new(chroma, signalled, depth));
        let good: Vec<Self> = DEPTHS.flat_map(of).collect();
        let mut breaks = Vec::new();
        for depth in [0, 1, 7, 13, 16, 128, 255] {
            breaks.push(Break::new(1, move |c: &mut Self| c.depth = depth));
        }
        for signalled in [0, 1, 2, 7, 8, 128, 255] {
            breaks.push(Break::new(8, move |c: &mut Self| c.signalled = signalled));
        }
        broken(&good, &breaks)
    }
}

impl Display for WorkingDamping {
    fn fmt(&self, f: &mut Formatter) -> Result {
        write!(f, "{} {}", self.signalled, self.depth)
    }
}

impl Case for WorkingDamping {
    type Value = i64;

    fn number(&self) -> u32 {
        questions::working_damping(self)
    }

    fn result(&self) -> i64 {
        let of = if self.chroma {
            reference::chroma_damping
        } else {
            reference::luma_damping
        };
        of(self.signalled, self.depth).into()
    }
}
