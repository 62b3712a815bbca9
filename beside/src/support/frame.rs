//! What the calls on whole pictures share: the picture and how a call is given its
//! damping.

pub mod applying;
mod breaks;
pub mod comparing;
pub mod direction_pass;
pub mod drawn;
pub mod map;
pub mod measuring;
mod questions;
pub mod stated;
pub mod trying;
pub mod unstated;

use crate::joined;
use crate::random::Random;
use reference::{Apply, Frame, Lists, Measure, Try};
use std::fmt::{Display, Formatter, Result};

/// Luma's sides, and the bit depth.
#[derive(Clone, Copy, PartialEq)]
pub struct Size {
    pub width: usize,
    pub height: usize,
    pub depth: u8,
}

impl Size {
    /// Blocks of 8 by 8.
    pub fn blocks(&self) -> usize {
        self.width / 8 * (self.height / 8)
    }

    /// The unit of a block.
    pub fn unit_of(&self, block: usize) -> usize {
        let blocks = self.width / 8;
        block / blocks / 8 * self.width.div_ceil(64) + block % blocks / 8
    }

    /// Units of 64 by 64, partial ones too.
    pub fn units(&self) -> usize {
        self.width.div_ceil(64) * self.height.div_ceil(64)
    }
}

/// Luma, or a chroma plane with its subsampling flags, horizontal and vertical.
#[derive(Clone, Copy, PartialEq)]
pub enum Kind {
    Luma,
    Chroma { sx: u8, sy: u8 },
}

pub const LUMA: [Kind; 1] = [Kind::Luma];

/// 4:4:4, 4:2:2, 4:4:0 and 4:2:0.
pub const CHROMA: [Kind; 4] = [
    Kind::Chroma { sx: 0, sy: 0 },
    Kind::Chroma { sx: 1, sy: 0 },
    Kind::Chroma { sx: 0, sy: 1 },
    Kind::Chroma { sx: 1, sy: 1 },
];

impl Kind {
    fn flags(&self) -> (u8, u8) {
        match *self {
            Kind::Luma => (0, 0),
            Kind::Chroma { sx, sy } => (sx, sy),
        }
    }

    /// The reference's functions for such a plane.
    pub fn rust(&self) -> (Try, Measure, Apply) {
        match self {
            Kind::Luma => (
                reference::cdef_luma_unit_dists_all,
                reference::cdef_luma_unit_dists,
                reference::apply_cdef_plane,
            ),
            Kind::Chroma { .. } => (
                reference::cdef_chroma_unit_sse_all,
                reference::cdef_chroma_unit_sse,
                reference::apply_cdef_chroma,
            ),
        }
    }

    /// 0 for luma, then a number for each layout.
    pub fn number(&self) -> usize {
        CHROMA.iter().position(|k| k == self).map_or(0, |k| k + 1)
    }

    /// The sides of the plane; flags are 0 or 1.
    pub fn sides(&self, size: &Size) -> (usize, usize) {
        let (sx, sy) = self.flags();
        (size.width >> sx, size.height >> sy)
    }
}

/// How a call is given its damping: where `unstated` is 0 by the signalled figure. Where it
/// is 1 the call is given none, and the figure is not read.
#[derive(Clone, Copy, PartialEq)]
pub struct DampingChoice {
    pub signalled: u8,
    pub unstated: u8,
}

impl DampingChoice {
    /// A figure of 3 to 6 in force, in either way where there are two: the figure in force
    /// where none is given is also left unstated, with any number in its place.
    pub fn random(figure: u8, r: &mut Random) -> Self {
        if figure != unstated::figure() || r.below(2) == 0 {
            return DampingChoice {
                signalled: figure,
                unstated: 0,
            };
        }
        let (in_range, any) = (r.between(3, 6) as u8, r.next() as u8);
        DampingChoice {
            signalled: r.pick(&[in_range, any]),
            unstated: 1,
        }
    }

    /// Of a choice that is accepted.
    pub fn in_force(&self) -> u8 {
        match self.unstated {
            0 => self.signalled,
            _ => unstated::figure(),
        }
    }
}

/// What trying, measuring and applying share. The lists have one entry per block.
#[derive(Clone, PartialEq)]
pub struct Picture {
    pub kind: Kind,
    pub size: Size,
    pub skip: Vec<u8>,
    pub dirs: Vec<u8>,
    /// Luma's; the chroma calls take none.
    pub vars: Vec<u32>,
    pub damping: DampingChoice,
}

impl Picture {
    /// The samples of the plane.
    pub fn samples(&self) -> usize {
        let (width, height) = self.kind.sides(&self.size);
        width * height
    }

    /// The length of the scratch: plane width by block height.
    pub fn scratch(&self) -> usize {
        (8 >> self.kind.flags().1) * self.kind.sides(&self.size).0
    }

    /// The same for the reference; flags are 0 or 1.
    pub fn frame(&self, (visible_width, visible_height): (usize, usize)) -> Frame {
        let (sx, sy) = self.kind.flags();
        let (sub_x, sub_y) = (sx.into(), sy.into());
        Frame {
            width: self.size.width,
            height: self.size.height,
            visible_width,
            visible_height,
            sub_x,
            sub_y,
            depth: self.size.depth,
            signalled_damping: self.damping.in_force(),
            chroma_map: map::chroma_map(sub_x, sub_y),
            lists: Lists::new(&self.skip, &self.dirs, &self.vars),
        }
    }
}

impl Display for Size {
    fn fmt(&self, f: &mut Formatter) -> Result {
        write!(f, "{} by {}, depth {}", self.width, self.height, self.depth)
    }
}

impl Display for DampingChoice {
    fn fmt(&self, f: &mut Formatter) -> Result {
        write!(f, "damping {} {}", self.signalled, self.unstated)
    }
}

impl Display for Picture {
    fn fmt(&self, f: &mut Formatter) -> Result {
        match self.kind {
            Kind::Luma => write!(f, "luma of {}", self.size)?,
            Kind::Chroma { sx, sy } => write!(f, "chroma {sx} {sy} of {}", self.size)?,
        }
        write!(f, ", {}", self.damping)?;
        show(f, "skip", &self.skip)?;
        show(f, "dirs", &self.dirs)?;
        show(f, "vars", &self.vars)
    }
}

/// Writes a short list, or the length of a longer one.
fn show<T: Display>(f: &mut Formatter, name: &str, list: &[T]) -> Result {
    match list.len() {
        0..=64 => write!(f, ", {name} [{}]", joined(list)),
        more => write!(f, ", {more} {name}"),
    }
}
