//! Our C entries for whole pictures, each as a safe function of a case.

pub mod bare;
mod entries;

use crate::list::List;
use crate::{BESIDE, HELD};
use support::Answer;
use support::frame::applying::Applying;
use support::frame::direction_pass::DirectionPass;
use support::frame::measuring::Measuring;
use support::frame::trying::Trying;
use support::planes::SIDE_MAX;

/// Guard elements around a list of totals, directions or variances.
const SPARE: usize = 64;

/// What the guards of totals, variances and directions hold; no call's result.
const HELD_TOTAL: i64 = -1;
const HELD_VARIANCE: u32 = u32::MAX;
const HELD_DIRECTION: u8 = u8::MAX;

/// The answer; its error code shows where the call altered what it may only read.
fn unaltered<C: Clone + PartialEq, V>(c: &C, call: impl FnOnce() -> Answer<V>) -> Answer<V> {
    let kept = c.clone();
    let answer = call();
    Answer {
        number: if kept == *c { answer.number } else { BESIDE },
        value: answer.value,
    }
}

/// The error code and two whole lists.
fn both<T: Copy + PartialEq, S: Copy + PartialEq>(
    number: u32,
    one: List<T>,
    other: List<S>,
) -> Answer<(Vec<T>, Vec<S>)> {
    let (one, other) = (one.answer(number), other.answer(number));
    Answer {
        number: one.number.max(other.number),
        value: (one.value, other.value),
    }
}

/// Guard elements around a plane or rows of it.
fn rows(width: usize) -> usize {
    16 + 2 * width.min(SIDE_MAX)
}

pub fn direction_pass(c: &DirectionPass) -> Answer<(Vec<u8>, Vec<u32>)> {
    unaltered(c, || {
        let mut dirs = List::new(&c.dirs, SPARE, HELD_DIRECTION);
        let mut vars = List::new(&c.vars, SPARE, HELD_VARIANCE);
        let number = bare::direction_pass(dirs.lent(), vars.lent(), &c.plane, &c.size);
        both(number, dirs, vars)
    })
}

pub fn trying(c: &Trying) -> Answer<Vec<i64>> {
    unaltered(c, || {
        let mut totals = List::new(&c.totals, SPARE, HELD_TOTAL);
        let number = bare::trying(totals.lent(), &c.compared);
        totals.answer(number)
    })
}

pub fn measuring(c: &Measuring) -> Answer<(Vec<i64>, Vec<u16>)> {
    unaltered(c, || {
        let mut totals = List::new(&c.totals, SPARE, HELD_TOTAL);
        let spare = rows(c.compared.picture.size.width);
        let mut scratch = List::new(&c.scratch, spare, HELD);
        let pair = (c.primary, c.secondary);
        let number = bare::measuring(totals.lent(), scratch.lent(), &c.compared, pair);
        both(number, totals, scratch)
    })
}

pub fn applying(c: &Applying) -> Answer<Vec<u16>> {
    unaltered(c, || {
        let mut dst = List::new(&c.dst, rows(c.picture.size.width), HELD);
        let number = bare::applying(dst.lent(), c);
        dst.answer(number)
    })
}
