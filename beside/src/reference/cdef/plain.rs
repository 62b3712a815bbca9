//! The functions of `cdef.rs` over plain slices and numbers: u16 samples, u8
//! directions and dampings, u32 strengths and variances.

use super::CdefDispatch;

/// Trial blocks of one block: twelve of 64 elements.
pub type Trial = [[i32; 64]; 12];

pub const MARK: u16 = super::CDEF_VERY_LARGE as u16;

#[inline]
pub fn constrain_spec(difference: i32, strength: u32, damping: u8) -> i32 {
    super::constrain_spec(difference, strength as i32, damping as i32)
}

#[inline]
pub fn adjust_pri(strength: u32, variance: u32) -> u32 {
    super::adjust_pri(strength as i32, variance as i32) as u32
}

/// The reference takes an i32, so `v` is at most 2^31 - 1.
#[inline]
pub fn log2_floor(v: u32) -> u32 {
    super::log2_floor(v.try_into().expect("log2_floor takes an i32")) as u32
}

pub fn cdef_direction(plane: &[u16], width: usize, x: usize, y: usize, depth: u8) -> (u8, u32) {
    let (direction, variance) = super::cdef_direction(plane, width, x, y, depth);
    (direction as u8, variance as u32)
}

/// `CdefDispatch::scalar().direction`, which the direction pass calls.
pub fn dispatch_direction(plane: &[u16], width: usize, x: usize, y: usize, depth: u8) -> (u8, u32) {
    let (direction, variance) = CdefDispatch::scalar().direction(plane, width, x, y, depth);
    (direction as u8, variance as u32)
}

/// `dst` is whole rows from row `dst_y0` on; damping is the working damping.
#[allow(clippy::too_many_arguments)]
pub fn cdef_filter_block(
    dst: &mut [u16],
    dst_y0: usize,
    src: &[u16],
    width: usize,
    x: usize,
    y: usize,
    bw: usize,
    bh: usize,
    pri: u32,
    sec: u32,
    direction: u8,
    damping: u8,
    depth: u8,
) {
    super::cdef_filter_block(
        dst,
        dst_y0,
        src,
        width,
        x,
        y,
        bw,
        bh,
        pri as i32,
        sec as i32,
        direction as usize,
        damping as i32,
        depth,
    );
}

/// Luma gives a variance, chroma none; damping is the working damping.
#[allow(clippy::too_many_arguments)]
pub fn cdef_block_candidates(
    src: &[u16],
    width: usize,
    x: usize,
    y: usize,
    bw: usize,
    bh: usize,
    direction: u8,
    variance: Option<u32>,
    damping: u8,
    depth: u8,
    out: &mut Trial,
) {
    super::cdef_block_candidates(
        src,
        width,
        x,
        y,
        bw,
        bh,
        direction as usize,
        variance.map(|v| v as i32),
        damping as i32,
        depth,
        out,
    );
}

/// The trial number of a signalled pair.
pub fn cand_index(pri: u8, sec: u8) -> usize {
    super::cand_index(pri as i32, sec as i32)
}

/// `src` is the original, `dst` the plane that is measured.
pub fn cdef_dist_8x8(
    src: &[u16],
    dst: &[u16],
    width: usize,
    height: usize,
    x: usize,
    y: usize,
    depth: u8,
) -> i64 {
    super::cdef_dist_8x8(src, dst, width, height, x, y, (depth - 8) as u32)
}

pub fn block_sse_8x8(a: &[u16], b: &[u16], width: usize, height: usize, x: usize, y: usize) -> i64 {
    super::block_sse_8x8(a, b, width, height, x, y)
}

/// A sample, or the mark off the plane.
pub fn sample(plane: &[u16], width: usize, x: i32, y: i32) -> i32 {
    super::sample(plane, width, x, y)
}

/// `Pel::narrow` of a u16.
pub fn narrow(v: i32) -> u16 {
    <u16 as crate::intrapred::Pel>::narrow(v)
}

/// For each trial block d and original block s, the sums of d, d * d and s * d.
pub fn cand_sums_8x8(
    src: &[u16],
    width: usize,
    x: usize,
    y: usize,
    trial: &Trial,
) -> [[i64; 3]; 12] {
    let mut sums = [[0; 3]; 12];
    super::cdef_cand_sums_8x8_scalar(src, width, x, y, trial, &mut sums);
    sums
}

/// The tap tables: directions as (row, column), primary and secondary weights.
pub fn tables() -> ([[(i32, i32); 2]; 8], [[i32; 2]; 2], [i32; 2]) {
    (
        super::CDEF_DIRECTIONS,
        super::CDEF_PRI_TAPS,
        super::CDEF_SEC_TAPS,
    )
}
