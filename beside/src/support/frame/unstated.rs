//! The figure in force where a call is given no damping, as the harness takes it.

use std::sync::atomic::{AtomicU8, Ordering};

/// The standard's `CdefDamping` where a header has no CDEF fields.
static FIGURE: AtomicU8 = AtomicU8::new(3);

/// From now on the harness takes another figure, which the reference is passed.
pub fn use_figure(figure: u8) {
    FIGURE.store(figure, Ordering::Relaxed);
}

pub fn figure() -> u8 {
    FIGURE.load(Ordering::Relaxed)
}
