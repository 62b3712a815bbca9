//! Cases of the direction pass.

use super::breaks;
use super::drawn::{Drawn, What};
use super::stated::FrameCase;
use super::{Kind, Size, questions, show};
use crate::Case;
use crate::counts::Amount;
use crate::random::Random;
use crate::refusals::{Break, of_parts};
use std::fmt::{Display, Formatter, Result};

#[derive(Clone, PartialEq)]
pub struct DirectionPass {
    pub size: Size,
    pub plane: Vec<u16>,
    /// The lists before the call.
    pub dirs: Vec<u8>,
    pub vars: Vec<u32>,
}

impl Display for DirectionPass {
    fn fmt(&self, f: &mut Formatter) -> Result {
        write!(
            f,
            "{}, lists {} {}",
            self.size,
            self.dirs.len(),
            self.vars.len()
        )?;
        show(f, "samples", &self.plane)
    }
}

/// The directions and the variances.
impl Case for DirectionPass {
    type Value = (Vec<u8>, Vec<u32>);

    fn number(&self) -> u32 {
        questions::direction_pass(self)
    }

    fn result(&self) -> Self::Value {
        let Size {
            width,
            height,
            depth,
        } = self.size;
        reference::direction_pass(&self.plane, width, height, depth)
    }

    fn amount(&self) -> Amount {
        Amount::samples(self.dirs.len() + self.vars.len())
    }

    fn left(&self) -> Self::Value {
        (self.dirs.clone(), self.vars.clone())
    }
}

impl FrameCase for DirectionPass {
    fn drawn(d: &Drawn, kind: Kind) -> Self {
        let r = &mut d.random(kind, What::Lists);
        let blocks = d.size.blocks();
        DirectionPass {
            size: d.size,
            plane: d.snapshot(kind).samples,
            dirs: r.list(blocks),
            vars: r.list(blocks),
        }
    }

    fn size(&self) -> Size {
        self.size
    }

    fn breaks(_: Kind) -> Vec<Break<Self>> {
        let mut list = of_parts(breaks::of_size(), |c: &mut Self| &mut c.size);
        list.extend(breaks::lengths(4, |c: &mut Self| &mut c.plane));
        list.extend(breaks::lengths(7, |c: &mut Self| &mut c.dirs));
        list.extend(breaks::lengths(7, |c: &mut Self| &mut c.vars));
        list.extend(breaks::samples(|c: &Self| c.size.depth, |c| &mut c.plane));
        list
    }

    fn scans(&self) -> Vec<Break<Self>> {
        let (samples, depth) = (self.plane.len(), self.size.depth);
        breaks::sample_scan(|c: &mut Self| &mut c.plane, samples, depth)
    }

    fn spoil_sample(&mut self, r: &mut Random) {
        breaks::spoil_sample(&mut self.plane, self.size.depth, r);
    }
}
