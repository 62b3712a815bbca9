//! What trying and measuring share: a plane is compared with an original.

use super::drawn::{Drawn, What};
use super::{Kind, Picture, Size, breaks, show};
use crate::built::Built;
use crate::random::Random;
use crate::refusals::{Break, of_parts};
use crate::spot::WIDE_SIZES;
use reference::Frame;
use std::fmt::{Display, Formatter, Result};

/// How many pictures of built blocks there are.
pub(crate) const BUILT: usize = 12;

#[derive(Clone, PartialEq)]
pub struct Compared {
    pub picture: Picture,
    pub visible_width: usize,
    pub visible_height: usize,
    /// The snapshot, or the plane that is measured.
    pub plane: Vec<u16>,
    pub original: Vec<u16>,
}

impl Compared {
    pub(crate) fn drawn(d: &Drawn, kind: Kind) -> Self {
        let plane = d.snapshot(kind);
        Compared {
            picture: d.picture(kind),
            visible_width: d.visible.0,
            visible_height: d.visible.1,
            original: plane.other(&mut d.random(kind, What::Original)),
            plane: plane.samples,
        }
    }

    /// Whether a block counts: it is not skipped, and a part of it is visible.
    pub(crate) fn counts(&self, block: usize) -> bool {
        let blocks = self.picture.size.width / 8;
        let (x, y) = (block % blocks * 8, block / blocks * 8);
        self.picture.skip[block] == 0 && x < self.visible_width && y < self.visible_height
    }

    /// A luma picture of depth 12, whose blocks show how the steps of the weighted
    /// distance are rounded.
    pub(crate) fn built(number: usize, r: &mut Random) -> Self {
        let size = Size {
            width: 72,
            height: 16,
            depth: 12,
        };
        let drawn = Drawn::new(number, size, r.next()).whole();
        let mut c = Self::drawn(&drawn, Kind::Luma);
        for block in 0..size.blocks() {
            let built = match block % 3 {
                0 => Built::under_top(r),
                _ => Built::loud(r),
            };
            let (x, y) = (block % 9 * 8, block / 9 * 8);
            for k in 0..64 {
                let at = (y + k / 8) * size.width + x + k % 8;
                (c.original[at], c.plane[at]) = (built.original[k] as u16, built.other[k] as u16);
            }
        }
        c
    }

    /// The same for the reference.
    pub fn frame(&self) -> Frame {
        let visible = (self.visible_width, self.visible_height);
        self.picture.frame(visible)
    }

    pub(crate) fn breaks(kind: Kind) -> Vec<Break<Self>> {
        type C = Compared;
        let mut list = of_parts(breaks::of_picture(kind), |c: &mut C| &mut c.picture);
        list.extend(breaks::lengths(4, |c: &mut C| &mut c.plane));
        list.extend(breaks::lengths(4, |c: &mut C| &mut c.original));
        list.extend(Self::visible_breaks());
        let depth = |c: &C| c.picture.size.depth;
        list.extend(breaks::samples(depth, |c| &mut c.plane));
        list.extend(breaks::samples(depth, |c| &mut c.original));
        list
    }

    /// 7.
    fn visible_breaks() -> Vec<Break<Self>> {
        type C = Compared;
        let width: fn(&mut C) -> &mut usize = |c| &mut c.visible_width;
        let height: fn(&mut C) -> &mut usize = |c| &mut c.visible_height;
        let mut list = vec![
            Break::new(7, |c: &mut C| c.visible_width = c.picture.size.width + 1),
            Break::new(7, |c: &mut C| c.visible_height = c.picture.size.height + 1),
        ];
        for side in [width, height] {
            list.extend(breaks::numbers(7, side, &[0, usize::MAX]));
            list.extend(breaks::larger(7, side, &WIDE_SIZES[1..]));
        }
        list
    }

    pub(crate) fn scans(&self) -> Vec<Break<Self>> {
        type C = Compared;
        let Size {
            width,
            height,
            depth,
        } = self.picture.size;
        let lists = breaks::picture_scans(&self.picture);
        let mut list = of_parts(lists, |c: &mut C| &mut c.picture);
        let samples = self.plane.len();
        list.extend(breaks::sample_scan(
            |c: &mut C| &mut c.plane,
            samples,
            depth,
        ));
        list.extend(breaks::sample_scan(
            |c: &mut C| &mut c.original,
            samples,
            depth,
        ));
        let (across, down): (Vec<_>, Vec<_>) = ((1..=width).collect(), (1..=height).collect());
        list.extend(breaks::numbers(
            0,
            |c: &mut C| &mut c.visible_width,
            &across,
        ));
        list.extend(breaks::numbers(0, |c: &mut C| &mut c.visible_height, &down));
        list
    }

    pub(crate) fn spoil_sample(&mut self, r: &mut Random) {
        let one = match r.below(2) {
            0 => &mut self.plane,
            _ => &mut self.original,
        };
        breaks::spoil_sample(one, self.picture.size.depth, r);
    }
}

impl Display for Compared {
    fn fmt(&self, f: &mut Formatter) -> Result {
        let (width, height) = (self.visible_width, self.visible_height);
        write!(f, "{}, visible {width} by {height}", self.picture)?;
        show(f, "samples", &self.plane)?;
        show(f, "samples of the original", &self.original)
    }
}
