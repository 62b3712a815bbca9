//! Which direction a chroma block takes from luma's: the standard's table, and the map that
//! the reference is given.

use reference::Frame;
use std::sync::atomic::{AtomicBool, Ordering};

/// The standard's `Cdef_Uv_Dir`, by the subsampling flags, horizontal and then vertical.
const CDEF_UV_DIR: [[[u8; 8]; 2]; 2] = [
    [[0, 1, 2, 3, 4, 5, 6, 7], [1, 2, 2, 2, 3, 4, 6, 0]],
    [[7, 0, 2, 4, 5, 6, 6, 6], [0, 1, 2, 3, 4, 5, 6, 7]],
];

/// Whether the reference is given its own map.
static OWN: AtomicBool = AtomicBool::new(false);

/// From now on the reference is given its own map, which in 4:4:0 is not the standard's.
pub fn use_own() {
    OWN.store(true, Ordering::Relaxed);
}

/// The standard's map; flags are 0 or 1.
pub fn standard(sx: usize, sy: usize) -> [u8; 8] {
    CDEF_UV_DIR[sx][sy]
}

/// The map that the reference is given.
pub fn chroma_map(sx: usize, sy: usize) -> [u8; 8] {
    if OWN.load(Ordering::Relaxed) {
        reference::chroma_direction_map(sx, sy)
    } else {
        standard(sx, sy)
    }
}

/// The same frame with the other one of the standard's map and the reference's own; none
/// where they are the same.
pub fn with_other(frame: Frame) -> Option<Frame> {
    let own = reference::chroma_direction_map(frame.sub_x, frame.sub_y);
    let maps = [standard(frame.sub_x, frame.sub_y), own];
    let chroma_map = maps.into_iter().find(|&map| map != frame.chroma_map)?;
    Some(Frame {
        chroma_map,
        ..frame
    })
}

/// How many elements of two lists differ.
pub(crate) fn apart<T: PartialEq>(one: &[T], other: &[T]) -> usize {
    one.iter().zip(other).filter(|(a, b)| a != b).count()
}
