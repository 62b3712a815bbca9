//! Cases of applying.

use super::drawn::{Drawn, What};
use super::stated::FrameCase;
use super::{DampingChoice, Kind, Picture, Size, breaks, map, questions, show};
use crate::Case;
use crate::counts::Amount;
use crate::random::Random;
use crate::refusals::{Break, of_parts};
use reference::{Frame, MARK};
use std::fmt::{Display, Formatter, Result};

#[derive(Clone, PartialEq)]
pub struct Applying {
    pub picture: Picture,
    pub snapshot: Vec<u16>,
    /// The pairs of the units.
    pub primaries: Vec<u8>,
    pub secondaries: Vec<u8>,
    /// The destination before the call.
    pub dst: Vec<u16>,
}

impl Applying {
    pub fn new(picture: Picture, snapshot: Vec<u16>, pairs: &[(u8, u8)], dst: Vec<u16>) -> Self {
        let (primaries, secondaries) = pairs.iter().copied().unzip();
        Applying {
            picture,
            snapshot,
            primaries,
            secondaries,
            dst,
        }
    }

    /// The same for the reference, which reads no visible size here.
    fn frame(&self) -> Frame {
        let Size { width, height, .. } = self.picture.size;
        self.picture.frame((width, height))
    }

    /// The destination as the reference leaves it.
    fn applied(&self, frame: &Frame) -> Vec<u16> {
        let (_, _, apply) = self.picture.kind.rust();
        let mut dst = self.dst.clone();
        apply(frame, &mut dst, &self.snapshot, &self.pairs());
        dst
    }
}

impl Display for Applying {
    fn fmt(&self, f: &mut Formatter) -> Result {
        self.picture.fmt(f)?;
        show(f, "primaries", &self.primaries)?;
        show(f, "secondaries", &self.secondaries)?;
        show(f, "samples", &self.snapshot)?;
        write!(f, ", destination of {}", self.dst.len())
    }
}

/// The whole destination.
impl Case for Applying {
    type Value = Vec<u16>;

    fn number(&self) -> u32 {
        questions::applying(self)
    }

    fn result(&self) -> Vec<u16> {
        self.applied(&self.frame())
    }

    /// The whole plane.
    fn amount(&self) -> Amount {
        Amount::samples(self.dst.len())
    }

    fn left(&self) -> Vec<u16> {
        self.dst.clone()
    }
}

impl FrameCase for Applying {
    /// The destination holds any numbers, or the snapshot.
    fn drawn(d: &Drawn, kind: Kind) -> Self {
        let snapshot = d.snapshot(kind).samples;
        let r = &mut d.random(kind, What::Lists);
        let dst = match r.below(3) {
            0 => snapshot.clone(),
            _ => r.list(snapshot.len()),
        };
        Self::new(d.picture(kind), snapshot, &d.pairs(kind), dst)
    }

    fn size(&self) -> Size {
        self.picture.size
    }

    fn damping(&self) -> Option<DampingChoice> {
        Some(self.picture.damping)
    }

    fn pairs(&self) -> Vec<(u8, u8)> {
        let both = self.primaries.iter().zip(&self.secondaries);
        both.map(|(&p, &s)| (p, s)).collect()
    }

    fn filters(&self, block: usize) -> bool {
        let unit = self.picture.size.unit_of(block);
        self.picture.skip[block] == 0 && (self.primaries[unit], self.secondaries[unit]) != (0, 0)
    }

    fn by_other_map(&self, due: &Vec<u16>) -> Amount {
        let other = map::with_other(self.frame()).map(|frame| self.applied(&frame));
        Amount {
            by_map: other.map_or(0, |other| map::apart(due, &other)),
            ..Amount::default()
        }
    }

    fn breaks(kind: Kind) -> Vec<Break<Self>> {
        type C = Applying;
        let mut list = of_parts(breaks::of_picture(kind), |c: &mut C| &mut c.picture);
        list.extend(breaks::lengths(4, |c: &mut C| &mut c.snapshot));
        list.extend(breaks::lengths(4, |c: &mut C| &mut c.dst));
        list.extend(breaks::lengths(7, |c: &mut C| &mut c.primaries));
        list.extend(breaks::lengths(7, |c: &mut C| &mut c.secondaries));
        list.extend(breaks::values(
            8,
            |c: &mut C| &mut c.primaries,
            &breaks::PRIMARIES,
        ));
        list.extend(breaks::values(
            8,
            |c: &mut C| &mut c.secondaries,
            &breaks::SECONDARIES,
        ));
        let depth = |c: &C| c.picture.size.depth;
        list.extend(breaks::samples(depth, |c| &mut c.snapshot));
        list
    }

    /// The destination is not examined.
    fn scans(&self) -> Vec<Break<Self>> {
        type C = Applying;
        let (units, samples) = (self.primaries.len(), self.dst.len());
        let lists = breaks::picture_scans(&self.picture);
        let mut list = of_parts(lists, |c: &mut C| &mut c.picture);
        let primaries = [(0, 0), (0, 15), (8, 16), (8, 255)];
        let secondaries = [(0, 0), (0, 1), (0, 2), (8, 3), (0, 4), (8, 5), (8, 255)];
        list.extend(breaks::scan(
            |c: &mut C| &mut c.primaries,
            units,
            &primaries,
        ));
        list.extend(breaks::scan(
            |c: &mut C| &mut c.secondaries,
            units,
            &secondaries,
        ));
        let depth = self.picture.size.depth;
        list.extend(breaks::sample_scan(
            |c: &mut C| &mut c.snapshot,
            samples,
            depth,
        ));
        list.extend(breaks::scan(
            |c: &mut C| &mut c.dst,
            samples,
            &[(0, MARK), (0, u16::MAX)],
        ));
        list
    }

    fn spoil_sample(&mut self, r: &mut Random) {
        breaks::spoil_sample(&mut self.snapshot, self.picture.size.depth, r);
    }
}
