//! Random pictures, from which the cases of every call on pictures are made.

use super::{DampingChoice, Kind, Picture, Size};
use crate::adjust_pri::AdjustPri;
use crate::planes::Plane;
use crate::random::Random;

/// After as many pictures as this each depth has met each pair.
pub const CYCLE: usize = 320;

/// The pairs that applying and measuring accept.
pub const PAIRS: usize = 64;

/// A pair of signalled strengths by its number.
pub fn pair(number: usize) -> (u8, u8) {
    let secondaries = [0, 1, 2, 4];
    let number = number % PAIRS;
    ((number % 16) as u8, secondaries[number / 16])
}

/// A pair that is tried, by its trial number.
pub fn trial_pair(number: usize) -> (u8, u8) {
    ([0, 1, 2, 4][number % 4], [0, 1, 2][number / 4])
}

/// Drawn for a plane, each from a generator of its own.
#[derive(Clone, Copy)]
pub enum What {
    Snapshot,
    Original,
    Damping,
    Lists,
    Pairs,
}

pub struct Drawn {
    pub size: Size,
    pub visible: (usize, usize),
    /// The figure in force.
    pub figure: u8,
    number: usize,
    seed: u64,
    luma: Plane,
    skip: Vec<u8>,
    dirs: Vec<u8>,
    vars: Vec<u32>,
}

impl Drawn {
    pub fn new(number: usize, size: Size, seed: u64) -> Self {
        let r = &mut Random::new(seed);
        let Size { width, height, .. } = size;
        let luma = Plane::random(r, (width, height), size.depth.max(8));
        let (dirs, vars) = directions(&luma, &size, r);
        Drawn {
            size,
            visible: (visible(width, r), visible(height, r)),
            figure: r.between(3, 6) as u8,
            number,
            seed,
            luma,
            skip: flags(size.blocks(), r),
            dirs,
            vars,
        }
    }

    /// The picture of a number: depths and pairs in turn, a quarter of the pictures over
    /// 64 in both sides, with partial units in both.
    pub fn numbered(number: usize, seed: u64) -> Self {
        let r = &mut Random::new(seed ^ Random::new(number as u64).next());
        let sides = sides((number + number / CYCLE) % 4, r);
        Self::of_sides(number, sides, r.next())
    }

    pub fn of_sides(number: usize, (width, height): (usize, usize), seed: u64) -> Self {
        let size = Size {
            width,
            height,
            depth: 8 + (number % 5) as u8,
        };
        Self::new(number, size, seed)
    }

    /// All of it visible, and every seventh block skipped.
    pub fn whole(mut self) -> Self {
        self.visible = (self.size.width, self.size.height);
        for (k, flag) in self.skip.iter_mut().enumerate() {
            *flag = u8::from(k % 7 == 3);
        }
        self
    }

    /// Of up to 80 by 80.
    pub(crate) fn small(number: usize, r: &mut Random) -> Self {
        let sides = (8 * r.between(1, 10) as usize, 8 * r.between(1, 10) as usize);
        Self::of_sides(number, sides, r.next())
    }

    pub fn random(&self, kind: Kind, what: What) -> Random {
        let stream = 1 + 8 * what as u64 + kind.number() as u64;
        Random::new(self.seed.wrapping_add(stream))
    }

    pub fn picture(&self, kind: Kind) -> Picture {
        let vars = match kind {
            Kind::Luma => self.vars.clone(),
            Kind::Chroma { .. } => Vec::new(),
        };
        Picture {
            kind,
            size: self.size,
            skip: self.skip.clone(),
            dirs: self.dirs.clone(),
            vars,
            damping: DampingChoice::random(self.figure, &mut self.random(kind, What::Damping)),
        }
    }

    pub fn snapshot(&self, kind: Kind) -> Plane {
        if kind == Kind::Luma {
            return self.luma.clone();
        }
        let r = &mut self.random(kind, What::Snapshot);
        Plane::random(r, kind.sides(&self.size), self.luma.depth)
    }

    /// The picture's own pair.
    pub fn pair(&self) -> (u8, u8) {
        pair(self.number)
    }

    /// Any pairs, one per unit, the picture's own first.
    pub fn pairs(&self, kind: Kind) -> Vec<(u8, u8)> {
        let r = &mut self.random(kind, What::Pairs);
        let apart = r.below(4) != 0;
        let mut other = |u: usize| {
            let more = if apart { r.below(64) as usize } else { 0 };
            pair(self.number + more * usize::from(u > 0))
        };
        (0..self.size.units()).map(&mut other).collect()
    }
}

/// Small ones; long ones; whole units; and over 64 in both sides, with partial units in both.
fn sides(class: usize, r: &mut Random) -> (usize, usize) {
    let mut times_8 = |low, high| 8 * r.between(low, high) as usize;
    match class {
        0 => (times_8(1, 5), times_8(1, 5)),
        1 => {
            let (long, short) = (times_8(9, 26), times_8(1, 10));
            r.pick(&[(long, short), (short, long)])
        }
        2 => (r.pick(&[8, 64, 64, 128]), r.pick(&[8, 64, 64, 128])),
        _ => {
            let mut cut = || 64 * r.between(1, 2) as usize + 8 * r.between(1, 7) as usize;
            (cut(), cut())
        }
    }
}

/// The whole side, part of it, or all but a part of the last block.
fn visible(side: usize, r: &mut Random) -> usize {
    match r.below(3) {
        0 => side.max(1),
        1 => r.between(1, side.max(1) as i64) as usize,
        _ => (side.saturating_sub(r.below(8) as usize)).max(1),
    }
}

/// Skip flags: none, all, few, many, or all but one.
fn flags(blocks: usize, r: &mut Random) -> Vec<u8> {
    let kind = r.below(8);
    let left = r.below(blocks as u64) as usize;
    let mut flag = |k: usize| match kind {
        0 | 1 => false,
        2 => true,
        3 => k != left,
        4 | 5 => r.below(2) == 0,
        _ => r.below(6) == 0,
    };
    (0..blocks).map(|k| u8::from(flag(k))).collect()
}

/// Directions and variances: the true ones, or any.
fn directions(luma: &Plane, size: &Size, r: &mut Random) -> (Vec<u8>, Vec<u32>) {
    let whole = size.width.is_multiple_of(8) && size.height.is_multiple_of(8);
    if whole && r.below(2) == 0 {
        return reference::direction_pass(&luma.samples, size.width, size.height, luma.depth);
    }
    let dirs = (0..size.blocks()).map(|_| r.below(8) as u8).collect();
    let vars = (0..size.blocks())
        .map(|_| AdjustPri::random(r).variance)
        .collect();
    (dirs, vars)
}
