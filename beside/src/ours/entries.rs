//! Our C entries, declared once.

#[link(name = "cdef_c", kind = "static")]
unsafe extern "C" {
    pub fn quern_constrain(difference: i32, strength: u32, damping: u8, out: *mut i32) -> u32;
    pub fn quern_adjust_pri(strength: u32, variance: u32, out: *mut u32) -> u32;
    pub fn quern_damping(index: u32, out: *mut u8) -> u32;
    pub fn quern_luma_damping(signalled: u8, depth: u8, out: *mut u8) -> u32;
    pub fn quern_chroma_damping(signalled: u8, depth: u8, out: *mut u8) -> u32;
    pub fn quern_log2_floor(v: u32) -> u32;
    pub fn quern_root(v: f64) -> f64;
    pub fn quern_direction(
        plane: *const u16,
        plane_len: usize,
        width: usize,
        height: usize,
        x: usize,
        y: usize,
        depth: u8,
        direction: *mut u8,
        variance: *mut u32,
    ) -> u32;
    pub fn quern_filter_block(
        dst: *mut u16,
        dst_len: usize,
        y0: usize,
        plane: *const u16,
        plane_len: usize,
        width: usize,
        height: usize,
        x: usize,
        y: usize,
        block_width: usize,
        block_height: usize,
        pri: u32,
        sec: u32,
        dir: u8,
        damping: u8,
        depth: u8,
    ) -> u32;
    pub fn quern_trial_luma(
        out: *mut u16,
        out_len: usize,
        plane: *const u16,
        plane_len: usize,
        width: usize,
        height: usize,
        x: usize,
        y: usize,
        block_width: usize,
        block_height: usize,
        variance: u32,
        dir: u8,
        damping: u8,
        depth: u8,
    ) -> u32;
    pub fn quern_trial_chroma(
        out: *mut u16,
        out_len: usize,
        plane: *const u16,
        plane_len: usize,
        width: usize,
        height: usize,
        x: usize,
        y: usize,
        block_width: usize,
        block_height: usize,
        dir: u8,
        damping: u8,
        depth: u8,
    ) -> u32;
    pub fn quern_distance(
        original: *const u16,
        original_len: usize,
        other: *const u16,
        other_len: usize,
        width: usize,
        height: usize,
        x: usize,
        y: usize,
        depth: u8,
        out: *mut i64,
    ) -> u32;
    pub fn quern_squares(
        original: *const u16,
        original_len: usize,
        other: *const u16,
        other_len: usize,
        width: usize,
        height: usize,
        x: usize,
        y: usize,
        depth: u8,
        out: *mut i64,
    ) -> u32;
}

/// The entry of the weighted distance, or of the sum of squared differences.
pub type Measure = unsafe extern "C" fn(
    *const u16,
    usize,
    *const u16,
    usize,
    usize,
    usize,
    usize,
    usize,
    u8,
    *mut i64,
) -> u32;

#[inline]
pub fn measure(weighted: bool) -> Measure {
    if weighted {
        quern_distance
    } else {
        quern_squares
    }
}
