//! Planes of every size and content for the calls on blocks.

use crate::random::Random;
use crate::spot::Spot;
use reference::MARK;
use std::borrow::Cow;
use std::ops::RangeInclusive;

pub const DEPTHS: RangeInclusive<u8> = 8..=12;

/// The longest side accepted.
pub const SIDE_MAX: usize = 4096;

/// Planes of every size up to this side are tried.
pub const SMALL: usize = 24;

/// Every size 1 to 24 by 1 to 24, and eight that are 4,096 long in one side.
pub fn sizes(r: &mut Random) -> Vec<(usize, usize)> {
    let mut list = Vec::new();
    for height in 1..=SMALL {
        list.extend((1..=SMALL).map(|width| (width, height)));
    }
    for _ in 0..4 {
        list.push((SIDE_MAX, r.between(1, 14) as usize));
        list.push((r.between(1, 14) as usize, SIDE_MAX));
    }
    list
}

#[derive(Clone)]
pub struct Plane {
    pub samples: Vec<u16>,
    pub width: usize,
    pub height: usize,
    pub depth: u8,
}

/// What a plane contains.
#[derive(Clone, Copy)]
enum Content {
    Picture,
    Flat,
    /// Flat except for a sample here and there, all alike or not.
    Outliers,
    FewLevels,
    /// The least and the largest sample: at random, in stripes, as a chessboard.
    Ends,
    Stripes,
    Chessboard,
    Near,
    Noise,
}

const CONTENTS: [Content; 9] = [
    Content::Picture,
    Content::Flat,
    Content::Outliers,
    Content::FewLevels,
    Content::Ends,
    Content::Stripes,
    Content::Chessboard,
    Content::Near,
    Content::Noise,
];

/// The slopes of stripes: right and down.
const SLOPES: [(i64, i64); 7] = [(0, 1), (1, 0), (1, 1), (1, -1), (1, 2), (2, -1), (1, -2)];

impl Plane {
    /// Samples below 2^depth of one kind of content.
    pub fn random(r: &mut Random, (width, height): (usize, usize), depth: u8) -> Self {
        let content = r.pick(&CONTENTS);
        if let Content::Picture = content {
            let samples = r.picture(width, height, depth);
            return Plane::new(samples, width, height, depth);
        }
        let (max, scale) = ((1i64 << depth) - 1, 1i64 << (depth - 8));
        let levels = [0; 4].map(|_| r.between(0, max));
        let (base, used) = (levels[0], r.between(2, 4) as u64);
        let spread = r.pick(&[1, 2, 4, 8, 20, 60]) * scale;
        let (above, below) = ((base + spread).min(max), (base - spread).max(0));
        let outlier = r.pick(&[None, Some(above), Some(below)]);
        let (right, down) = r.pick(&SLOPES);
        let thick = r.between(1, 5);
        let mut samples = Vec::with_capacity(width * height);
        for y in 0..height as i64 {
            for x in 0..width as i64 {
                let sample = match content {
                    Content::Outliers if r.below(30) == 0 => {
                        outlier.unwrap_or_else(|| r.between(0, max))
                    }
                    Content::Picture | Content::Flat | Content::Outliers => base,
                    Content::FewLevels => levels[r.below(used) as usize],
                    Content::Ends => r.pick(&[0, max]),
                    Content::Stripes => {
                        (right * x + down * y).div_euclid(thick).rem_euclid(2) * max
                    }
                    Content::Chessboard => (x / thick + y / thick) % 2 * max,
                    Content::Near => r.between(below, above),
                    Content::Noise => r.between(0, max),
                };
                samples.push(sample as u16);
            }
        }
        Plane::new(samples, width, height, depth)
    }

    /// A plane of up to 14 by 14, of any depth.
    pub(crate) fn small(r: &mut Random) -> Self {
        let size = (r.between(1, 14) as usize, r.between(1, 14) as usize);
        let depth = r.between(8, 12) as u8;
        Plane::random(r, size, depth)
    }

    pub fn new(samples: Vec<u16>, width: usize, height: usize, depth: u8) -> Self {
        Plane {
            samples,
            width,
            height,
            depth,
        }
    }

    /// Samples of a plane of that size and depth: near this one's, the same, or any.
    pub fn other(&self, r: &mut Random) -> Vec<u16> {
        let far = r.pick(&[0, 1, 3, 20]) << (self.depth - 8);
        if r.below(3) == 0 {
            return Plane::random(r, (self.width, self.height), self.depth).samples;
        }
        let most = (1 << self.depth) - 1;
        let mut moved = |s: &u16| (i64::from(*s) + r.between(-far, far)).clamp(0, most) as u16;
        self.samples.iter().map(&mut moved).collect()
    }

    /// With marks at none, one, few, half or all of the positions, or from a line on.
    pub fn marked(mut self, r: &mut Random) -> Self {
        let (count, width) = (self.samples.len() as u64, self.width);
        let kind = r.below(12);
        match kind {
            0..5 => {}
            5 => self.samples[r.below(count) as usize] = MARK,
            6 => self.samples.fill(MARK),
            7 | 8 => {
                let from = r.below(if kind == 7 { width } else { self.height } as u64) as usize;
                let after = r.below(2) == 0;
                for (k, s) in self.samples.iter_mut().enumerate() {
                    let at = if kind == 7 { k % width } else { k / width };
                    if (at >= from) == after {
                        *s = MARK;
                    }
                }
            }
            _ => {
                let every = r.pick(&[2, 5, 20]);
                for s in &mut self.samples {
                    if r.below(every) == 0 {
                        *s = MARK;
                    }
                }
            }
        }
        self
    }

    /// The position (x, y) of the plane.
    pub fn spot(&self, x: usize, y: usize) -> Spot<'_> {
        Spot {
            plane: Cow::Borrowed(&self.samples),
            width: self.width,
            height: self.height,
            depth: self.depth,
            x,
            y,
        }
    }

    /// A position on the plane, often near an end of a side.
    pub fn any_spot(&self, r: &mut Random) -> Spot<'_> {
        let mut along = |side: usize| match r.below(4) {
            0 => r.below(side.min(4) as u64) as usize,
            1 => side - 1 - r.below(side.min(12) as u64) as usize,
            _ => r.below(side as u64) as usize,
        };
        let (x, y) = (along(self.width), along(self.height));
        self.spot(x, y)
    }
}
