//! The entries for whole pictures, without guards around what they write: for
//! measuring.

use super::entries::*;
use support::frame::applying::Applying;
use support::frame::comparing::Compared;
use support::frame::{Kind, Size};

/// An entry's error code. In this order it takes what it writes, planes, numbers, lists and
/// numbers; a slice is passed as its address and its length.
macro_rules! number {
    ($entry:ident: $($out:ident),*; $($plane:expr),*; $($n:expr),*; $($list:expr),*; $($m:expr),*) => {
        // SAFETY: the slices have the lengths given, and do not overlap.
        unsafe {
            $entry(
                $($out.as_mut_ptr(), $out.len(),)*
                $($plane.as_ptr(), $plane.len(),)*
                $($n,)*
                $($list.as_ptr(), $list.len(),)*
                $($m,)*
            )
        }
    };
}

/// Directions and variances are written.
#[inline]
pub fn direction_pass(dirs: &mut [u8], vars: &mut [u32], plane: &[u16], size: &Size) -> u32 {
    number!(quern_direction_pass: dirs, vars; plane; size.width, size.height, size.depth;;)
}

/// Twelve totals per unit are written.
#[inline]
pub fn trying(totals: &mut [i64], c: &Compared) -> u32 {
    let (p, size, d) = (&c.picture, &c.picture.size, &c.picture.damping);
    match p.kind {
        Kind::Luma => number!(quern_try_luma: totals; c.plane, c.original;
            size.width, size.height, c.visible_width, c.visible_height, size.depth;
            p.skip, p.dirs, p.vars;
            d.signalled, d.unstated),
        Kind::Chroma { sx, sy } => number!(quern_try_chroma: totals; c.plane, c.original;
            size.width, size.height, sx, sy, c.visible_width, c.visible_height, size.depth;
            p.skip, p.dirs;
            d.signalled, d.unstated),
    }
}

/// One total per unit is written, and the scratch.
#[inline]
pub fn measuring(
    totals: &mut [i64],
    scratch: &mut [u16],
    c: &Compared,
    (primary, secondary): (u8, u8),
) -> u32 {
    let (p, size, d) = (&c.picture, &c.picture.size, &c.picture.damping);
    match p.kind {
        Kind::Luma => number!(quern_measure_luma: totals, scratch; c.plane, c.original;
            size.width, size.height, c.visible_width, c.visible_height, size.depth;
            p.skip, p.dirs, p.vars;
            primary, secondary, d.signalled, d.unstated),
        Kind::Chroma { sx, sy } => {
            number!(quern_measure_chroma: totals, scratch; c.plane, c.original;
            size.width, size.height, sx, sy, c.visible_width, c.visible_height, size.depth;
            p.skip, p.dirs;
            primary, secondary, d.signalled, d.unstated)
        }
    }
}

/// A destination is written; the case's own is not read.
#[inline]
pub fn applying(dst: &mut [u16], c: &Applying) -> u32 {
    let (p, size, d) = (&c.picture, &c.picture.size, &c.picture.damping);
    match p.kind {
        Kind::Luma => number!(quern_apply_luma: dst; c.snapshot;
            size.width, size.height, size.depth;
            p.skip, p.dirs, p.vars, c.primaries, c.secondaries;
            d.signalled, d.unstated),
        Kind::Chroma { sx, sy } => number!(quern_apply_chroma: dst; c.snapshot;
            size.width, size.height, sx, sy, size.depth;
            p.skip, p.dirs, c.primaries, c.secondaries;
            d.signalled, d.unstated),
    }
}
