//! Good cases of the calls on pictures, and broken ones with the error code stated with
//! each.

use super::drawn::Drawn;
use super::{DampingChoice, Kind, Size};
use crate::Case;
use crate::counts::Amount;
use crate::planes::SIDE_MAX;
use crate::random::Random;
use crate::refusals::{Break, Stated, alone, broken};
use std::slice::from_ref;

/// A case of a call on a picture.
pub trait FrameCase: Case + Clone + PartialEq + 'static {
    /// Of a plane of a drawn picture; it is accepted.
    fn drawn(d: &Drawn, kind: Kind) -> Self;

    /// Luma pictures built for the call.
    fn edges(_: &mut Random) -> Vec<Self> {
        Vec::new()
    }

    fn size(&self) -> Size;

    /// For the calls that take it.
    fn damping(&self) -> Option<DampingChoice> {
        None
    }

    /// The units' pairs, or the one for all units.
    fn pairs(&self) -> Vec<(u8, u8)> {
        Vec::new()
    }

    /// Whether a block is filtered, in the calls that take pairs: it is not skipped, and its
    /// pair is not 0, 0.
    fn filters(&self, _block: usize) -> bool {
        false
    }

    /// How much of the reference's answer to an accepted case is another one by the other
    /// chroma direction map: the standard's, or the reference's own.
    fn by_other_map(&self, _due: &Self::Value) -> Amount {
        Amount::default()
    }

    /// Each failing check, to be made alone and in twos.
    fn breaks(kind: Kind) -> Vec<Break<Self>>;

    /// Each element of each list, to be changed alone; where it is accepted the error code is 0.
    fn scans(&self) -> Vec<Break<Self>>;

    /// One sample somewhere is out of range.
    fn spoil_sample(&mut self, r: &mut Random);
}

/// Luma's sides and depth, of which good cases are made.
const GOOD: [(usize, usize, u8); 4] = [(72, 8, 10), (8, 8, 8), (8, 72, 12), (24, 24, 9)];

/// Sides at their limits, and an empty picture of depth 7.
const LIMITS: [(u32, usize, usize, u8); 11] = [
    (0, SIDE_MAX, 8, 8),
    (0, 8, SIDE_MAX, 12),
    (2, SIDE_MAX + 8, 8, 8),
    (2, 8, SIDE_MAX + 8, 8),
    (2, SIDE_MAX + 1, 8, 8),
    (2, 12, 8, 8),
    (2, 8, 9, 8),
    (2, 0, 8, 8),
    (2, 8, 0, 8),
    (2, 0, 0, 8),
    (1, 0, 0, 7),
];

/// A case of those sides, whose lists and planes fit.
fn fitting<C: FrameCase>(k: usize, (width, height, depth): (usize, usize, u8), kind: Kind) -> C {
    let size = Size {
        width,
        height,
        depth,
    };
    let drawn = Drawn::new(k, size, k as u64).whole();
    C::drawn(&drawn, kind)
}

/// The limits; good cases, broken ones, and scans of the lists and planes.
pub fn stated<C: FrameCase>(kinds: &[Kind]) -> impl Iterator<Item = Stated<C>> {
    let kind = |k: usize| kinds[k % kinds.len()];
    let limits = LIMITS.iter().enumerate();
    let limits = limits.map(move |(k, &(number, width, height, depth))| {
        (number, fitting(k, (width, height, depth), kind(k)))
    });
    let asked = GOOD.iter().enumerate().flat_map(move |(k, &size)| {
        let good: C = fitting(k, size, kind(k));
        let mut list = broken(from_ref(&good), &C::breaks(kind(k)));
        list.extend(alone(&good, &good.scans()));
        list
    });
    limits.chain(asked)
}

/// A small picture on which up to three of the breaks were made, in any order.
pub fn any<C: FrameCase>(r: &mut Random, number: usize, kind: Kind, breaks: &[Break<C>]) -> C {
    let mut c = C::drawn(&Drawn::small(number, r), kind);
    for _ in 0..r.below(4) {
        breaks[r.below(breaks.len() as u64) as usize].make(&mut c);
    }
    if r.below(3) == 0 {
        c.spoil_sample(r);
    }
    c
}
