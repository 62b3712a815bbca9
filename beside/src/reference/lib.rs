//! The unchanged Rust reference: `src/cdef.rs` and `src/coder/frame_cdef.rs` of the folder
//! in `MAROONTREE`, compiled as they stand, with one plain function per function.

mod shims;

use shims::{intrapred, obu, rd_sse, tuning};

/// `src/cdef.rs`, with the plain functions as a child that sees its private items.
#[allow(dead_code, unexpected_cfgs)]
mod cdef {
    include!(concat!(env!("MAROONTREE"), "/src/cdef.rs"));

    pub mod plain;
}

/// `src/coder/frame_cdef.rs`, which the reference's `coder.rs` includes in the same way.
#[allow(dead_code)]
mod coder {
    use crate::shims::{Pool, Speed, dc_q, frame_lambda_d, mode_lambda_q};

    include!(concat!(env!("MAROONTREE"), "/src/coder/frame_cdef.rs"));

    pub mod plain;
    pub mod whole;
}

pub use cdef::plain::*;
pub use coder::plain::*;
pub use coder::whole::*;
