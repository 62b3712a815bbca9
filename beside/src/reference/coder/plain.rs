//! The functions of `frame_cdef.rs` over plain slices and numbers.

use super::{CdefMetric, Pool};
use crate::cdef::CdefDispatch;
use crate::rd_sse::RdDispatch;

/// Lists with one entry per luma block, in rows, of the types that the reference takes.
#[derive(Clone)]
pub struct Lists {
    pub skip: Vec<bool>,
    pub directions: Vec<usize>,
    pub variances: Vec<i32>,
}

impl Lists {
    pub fn new(skip: &[u8], directions: &[u8], variances: &[u32]) -> Self {
        Lists {
            skip: skip.iter().map(|&s| s != 0).collect(),
            directions: directions.iter().map(|&d| d as usize).collect(),
            variances: variances.iter().map(|&v| v as i32).collect(),
        }
    }
}

/// What the frame functions share. Width and height are luma's, multiples of 8.
#[derive(Clone)]
pub struct Frame {
    pub width: usize,
    pub height: usize,
    pub visible_width: usize,
    pub visible_height: usize,
    pub sub_x: usize,
    pub sub_y: usize,
    pub depth: u8,
    pub signalled_damping: u8,
    /// The direction in chroma of each direction in luma, lent to the reference as `uv_dir`.
    pub chroma_map: [u8; 8],
    pub lists: Lists,
}

impl Frame {
    pub fn block_columns(&self) -> usize {
        self.width.div_ceil(8)
    }

    pub fn block_rows(&self) -> usize {
        self.height.div_ceil(8)
    }

    pub fn unit_columns(&self) -> usize {
        self.width.div_ceil(64)
    }

    pub fn units(&self) -> usize {
        self.unit_columns() * self.height.div_ceil(64)
    }

    pub fn chroma_width(&self) -> usize {
        self.width >> self.sub_x
    }

    pub fn chroma_height(&self) -> usize {
        self.height >> self.sub_y
    }

    fn damping(&self) -> i32 {
        luma_damping(self.signalled_damping, self.depth)
    }

    fn chroma_damping(&self) -> i32 {
        chroma_damping(self.signalled_damping, self.depth)
    }

    /// Repeated from `frame_cdef`.
    fn chroma_visible(&self) -> (usize, usize) {
        (
            self.visible_width.div_ceil(1 << self.sub_x),
            self.visible_height.div_ceil(1 << self.sub_y),
        )
    }

    fn chroma_directions(&self) -> [usize; 8] {
        self.chroma_map.map(usize::from)
    }
}

/// The signalled damping of a quality index.
pub fn cdef_damping(index: u8) -> u8 {
    super::cdef_damping(index)
}

/// The working damping of a luma plane, whose line is repeated from `frame_cdef`.
pub fn luma_damping(signalled: u8, depth: u8) -> i32 {
    signalled as i32 + (depth as i32 - 8)
}

/// The working damping of a chroma plane, whose line is repeated from `frame_cdef`.
pub fn chroma_damping(signalled: u8, depth: u8) -> i32 {
    luma_damping(signalled, depth) - 1
}

/// The direction pass, whose lines are repeated from `frame_cdef`.
pub fn direction_pass(luma: &[u16], width: usize, height: usize, depth: u8) -> (Vec<u8>, Vec<u32>) {
    let (nbx, nby) = (width.div_ceil(8), height.div_ceil(8));
    let mut directions = vec![0u8; nbx * nby];
    let mut variances = vec![0u32; nbx * nby];
    for by in 0..nby {
        for bx in 0..nbx {
            if bx * 8 < width && by * 8 < height {
                let (d, v) = crate::dispatch_direction(luma, width, bx * 8, by * 8, depth);
                directions[by * nbx + bx] = d;
                variances[by * nbx + bx] = v;
            }
        }
    }
    (directions, variances)
}

/// The reference's own chroma direction map, whose lines are repeated from `frame_cdef`. In
/// 4:4:0 it is the identity and not the standard's map, so it is for the self-test, for
/// `--own-map` and for counting what differs by the map.
pub fn chroma_direction_map(sub_x: usize, sub_y: usize) -> [u8; 8] {
    if sub_x == 1 && sub_y == 0 {
        [7, 0, 2, 4, 5, 6, 6, 6]
    } else {
        [0, 1, 2, 3, 4, 5, 6, 7]
    }
}

/// The functions of a plane, in luma and in chroma.
pub type Try = fn(&Frame, &[u16], &[u16]) -> Vec<[i64; 12]>;
pub type Measure = fn(&Frame, &[u16], &[u16], u8, u8) -> Vec<i64>;
pub type Apply = fn(&Frame, &mut [u16], &[u16], &[(u8, u8)]);

/// Trying, luma: twelve totals per unit.
pub fn cdef_luma_unit_dists_all(f: &Frame, recon: &[u16], src: &[u16]) -> Vec<[i64; 12]> {
    super::cdef_luma_unit_dists_all(
        &CdefDispatch::scalar(),
        &RdDispatch,
        recon,
        src,
        f.width,
        f.height,
        f.visible_width,
        f.visible_height,
        &f.lists.directions,
        &f.lists.variances,
        &f.lists.skip,
        f.block_columns(),
        f.unit_columns(),
        f.damping(),
        f.depth,
        CdefMetric::CdefDist,
        &Pool,
    )
}

/// Trying, one chroma plane: twelve totals per unit.
pub fn cdef_chroma_unit_sse_all(f: &Frame, recon: &[u16], src: &[u16]) -> Vec<[i64; 12]> {
    let (visible_width, visible_height) = f.chroma_visible();
    super::cdef_chroma_unit_sse_all(
        &CdefDispatch::scalar(),
        &RdDispatch,
        recon,
        src,
        f.chroma_width(),
        visible_width,
        visible_height,
        &f.lists.directions,
        &f.chroma_directions(),
        &f.lists.skip,
        f.block_columns(),
        f.block_rows(),
        f.unit_columns(),
        f.sub_x,
        f.sub_y,
        f.chroma_damping(),
        f.depth,
        CdefMetric::CdefDist,
        &Pool,
    )
}

/// Measuring, luma: one total per unit, for one pair.
pub fn cdef_luma_unit_dists(f: &Frame, recon: &[u16], src: &[u16], pri: u8, sec: u8) -> Vec<i64> {
    super::cdef_luma_unit_dists(
        recon,
        src,
        f.width,
        f.height,
        f.visible_width,
        f.visible_height,
        &f.lists.directions,
        &f.lists.variances,
        &f.lists.skip,
        f.block_columns(),
        f.unit_columns(),
        f.units(),
        pri as i32,
        sec as i32,
        f.damping(),
        f.depth,
        true,
    )
}

/// Measuring, one chroma plane: one total per unit, for one pair.
pub fn cdef_chroma_unit_sse(f: &Frame, recon: &[u16], src: &[u16], pri: u8, sec: u8) -> Vec<i64> {
    let (visible_width, visible_height) = f.chroma_visible();
    super::cdef_chroma_unit_sse(
        recon,
        src,
        f.chroma_width(),
        f.chroma_height(),
        visible_width,
        visible_height,
        &f.lists.directions,
        &f.chroma_directions(),
        &f.lists.skip,
        f.block_columns(),
        f.block_rows(),
        f.unit_columns(),
        f.units(),
        f.sub_x,
        f.sub_y,
        pri as i32,
        sec as i32,
        f.chroma_damping(),
        f.depth,
    )
}

fn pair_list(pairs: &[(u8, u8)]) -> Vec<(i32, i32)> {
    pairs.iter().map(|&(p, s)| (p as i32, s as i32)).collect()
}

/// Applying, luma: one pair per unit.
pub fn apply_cdef_plane(f: &Frame, plane: &mut [u16], snapshot: &[u16], pairs: &[(u8, u8)]) {
    super::apply_cdef_plane(
        plane,
        snapshot,
        f.width,
        f.height,
        &f.lists.directions,
        &f.lists.variances,
        &f.lists.skip,
        f.block_columns(),
        f.unit_columns(),
        &pair_list(pairs),
        f.damping(),
        f.depth,
        &Pool,
    );
}

/// Applying, one chroma plane: one pair per unit.
pub fn apply_cdef_chroma(f: &Frame, plane: &mut [u16], snapshot: &[u16], pairs: &[(u8, u8)]) {
    super::apply_cdef_chroma(
        plane,
        snapshot,
        f.chroma_width(),
        f.chroma_height(),
        &f.lists.directions,
        &f.chroma_directions(),
        &f.lists.skip,
        f.block_columns(),
        f.block_columns(),
        f.block_rows(),
        f.sub_x,
        f.sub_y,
        f.unit_columns(),
        &pair_list(pairs),
        f.chroma_damping(),
        f.depth,
        &Pool,
    );
}
