//! The C entry of a case, with what is passed to it.

use crate::case::Call::*;
use crate::case::Case;
use crate::entries::*;
use crate::frame_entries::*;

/// An entry's error code. It takes lists, numbers, lists and numbers in this order; a list is
/// passed as its address and its length.
macro_rules! number {
    ($entry:ident: $($list:ident)*; $($n:expr),*; $($later:ident)*; $($m:expr),*) => {
        // SAFETY: the lists are passed with their lengths, and do not overlap.
        unsafe { $entry($($list.lent().0, $list.lent().1,)* $($n,)* $($later.lent().0, $later.lent().1,)* $($m),*) }
    };
}

/// What the entry returns.
pub fn answer(c: &Case) -> u32 {
    let n = &c.n;
    match c.call {
        Constrain => {
            number!(quern_constrain:; n.difference, n.strength, n.damping, c.vars.at().cast();;)
        }
        AdjustPri => number!(quern_adjust_pri:; n.strength, n.variance, c.vars.at();;),
        Damping => number!(quern_damping:; n.quality, c.dirs.at();;),
        LumaDamping => number!(quern_luma_damping:; n.damping, n.depth, c.dirs.at();;),
        ChromaDamping => number!(quern_chroma_damping:; n.damping, n.depth, c.dirs.at();;),
        _ if c.call.is_frame() => frame(c),
        _ => block(c),
    }
}

fn block(c: &Case) -> u32 {
    let Case {
        n,
        plane,
        other,
        dst,
        ..
    } = c;
    match c.call {
        Direction => number!(quern_direction: plane;
            n.width, n.height, n.x, n.y, n.depth, c.dirs.at(), c.vars.at();;),
        FilterBlock => number!(quern_filter_block: dst; n.y0; plane;
            n.width, n.height, n.x, n.y, n.bw, n.bh, n.pri, n.sec, n.dir, n.damping, n.depth),
        TrialLuma => number!(quern_trial_luma: dst plane;
            n.width, n.height, n.x, n.y, n.bw, n.bh, n.variance, n.dir, n.damping, n.depth;;),
        TrialChroma => number!(quern_trial_chroma: dst plane;
            n.width, n.height, n.x, n.y, n.bw, n.bh, n.dir, n.damping, n.depth;;),
        Distance => number!(quern_distance: plane other;
            n.width, n.height, n.x, n.y, n.depth, c.totals.at();;),
        _ => number!(quern_squares: plane other;
            n.width, n.height, n.x, n.y, n.depth, c.totals.at();;),
    }
}

#[rustfmt::skip]
fn frame(c: &Case) -> u32 {
    let Case { n, plane, other, dst, totals, skip, dirs, vars, pris, secs, .. } = c;
    match c.call {
        DirectionPass => number!(quern_direction_pass: dirs vars plane; n.width, n.height, n.depth;;),
        TryLuma => number!(quern_try_luma: totals plane other;
            n.width, n.height, n.visible_width, n.visible_height, n.depth; skip dirs vars;
            n.damping, n.unstated),
        TryChroma => number!(quern_try_chroma: totals plane other;
            n.width, n.height, n.sx, n.sy, n.visible_width, n.visible_height, n.depth; skip dirs;
            n.damping, n.unstated),
        MeasureLuma => number!(quern_measure_luma: totals dst plane other;
            n.width, n.height, n.visible_width, n.visible_height, n.depth; skip dirs vars;
            n.primary, n.secondary, n.damping, n.unstated),
        MeasureChroma => number!(quern_measure_chroma: totals dst plane other;
            n.width, n.height, n.sx, n.sy, n.visible_width, n.visible_height, n.depth; skip dirs;
            n.primary, n.secondary, n.damping, n.unstated),
        ApplyLuma => number!(quern_apply_luma: dst plane;
            n.width, n.height, n.depth; skip dirs vars pris secs;
            n.damping, n.unstated),
        _ => number!(quern_apply_chroma: dst plane;
            n.width, n.height, n.sx, n.sy, n.depth; skip dirs pris secs;
            n.damping, n.unstated),
    }
}
