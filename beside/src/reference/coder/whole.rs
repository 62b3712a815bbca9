//! `frame_cdef` run whole, for checking the lines that are repeated from it. The
//! strengths that it picks are those of the stand-in settings.

use super::{Pool, Speed};
use crate::cdef::CdefDispatch;
use crate::rd_sse::RdDispatch;

/// The picked pairs, one per unit, and the signalled damping.
pub struct Picked {
    pub luma: Vec<(u8, u8)>,
    pub chroma: Vec<(u8, u8)>,
    pub signalled_damping: u8,
}

/// Filters the three planes in place, or returns nothing and leaves them unchanged.
pub fn frame_cdef(
    f: &crate::Frame,
    quality_index: u8,
    planes: &mut [Vec<u16>; 3],
    original: &[Vec<u16>; 3],
) -> Option<Picked> {
    let decision = super::frame_cdef(
        &CdefDispatch::scalar(),
        &RdDispatch,
        planes,
        original,
        &f.lists.skip,
        f.block_columns(),
        f.width,
        f.height,
        f.chroma_width(),
        f.chroma_height(),
        f.visible_width,
        f.visible_height,
        f.sub_x,
        f.sub_y,
        false,
        quality_index,
        f.depth,
        Speed,
        &Pool,
    )?;
    assert_eq!(decision.params.strengths.len(), 1 << decision.params.bits);
    let set = |unit: usize| {
        let index = decision.grid.get(unit).copied().unwrap_or(0);
        decision.params.strengths[index as usize]
    };
    Some(Picked {
        luma: (0..f.units()).map(|u| (set(u).0, set(u).1)).collect(),
        chroma: (0..f.units()).map(|u| (set(u).2, set(u).3)).collect(),
        signalled_damping: decision.params.damping,
    })
}
