//! Our C entries, each as a safe function of a case.

pub mod bare;
mod entries;
pub mod frame;
mod list;
pub mod passes;

use entries::*;
use list::List;
use support::Answer;
use support::adjust_pri::AdjustPri;
use support::constrain::Constrain;
use support::damping::Damping;
use support::direction::Direction;
use support::distance::Distance;
use support::filter::Filter;
use support::log2_floor::Log2Floor;
use support::planes::SIDE_MAX;
use support::trial::Trial;
use support::working_damping::WorkingDamping;

/// The error code of an answer after which memory outside what was passed was altered.
const BESIDE: u32 = u32::MAX;

/// One number passed by address, with `held` in it and on both sides of it before the call.
struct Lent<T> {
    held: T,
    places: [T; 3],
}

impl<T: Copy + Into<i64> + PartialEq> Lent<T> {
    #[inline]
    fn new(held: T) -> Self {
        Lent {
            held,
            places: [held; 3],
        }
    }

    #[inline]
    fn out(&mut self) -> *mut T {
        // SAFETY: the middle element of three.
        unsafe { self.places.as_mut_ptr().add(1) }
    }

    #[inline]
    fn is_alone(&self) -> bool {
        self.places[0] == self.held && self.places[2] == self.held
    }

    /// What it holds; after a rejected call how far it was moved.
    #[inline]
    fn value(&self, number: u32) -> i64 {
        let moved_from = if number == 0 { 0 } else { self.held.into() };
        self.places[1].into() - moved_from
    }
}

/// The error code and what `out` holds; after a rejected call how far it was moved.
#[inline]
fn answer<T: Copy + Into<i64> + PartialEq>(
    held: T,
    call: impl FnOnce(*mut T) -> u32,
) -> Answer<i64> {
    let mut lent = Lent::new(held);
    let number = call(lent.out());
    Answer {
        number: if lent.is_alone() { number } else { BESIDE },
        value: lent.value(number),
    }
}

#[inline]
pub fn constrain(c: &Constrain, held: i32) -> Answer<i64> {
    answer(held, |out| {
        // SAFETY: `out` is one number that is borrowed for the call.
        unsafe { quern_constrain(c.difference, c.strength, c.damping, out) }
    })
}

#[inline]
pub fn adjust_pri(c: &AdjustPri, held: u32) -> Answer<i64> {
    answer(held, |out| {
        // SAFETY: as above.
        unsafe { quern_adjust_pri(c.strength, c.variance, out) }
    })
}

#[inline]
pub fn damping(c: &Damping, held: u8) -> Answer<i64> {
    answer(held, |out| {
        // SAFETY: as above.
        unsafe { quern_damping(c.0, out) }
    })
}

#[inline]
pub fn working_damping(c: &WorkingDamping, held: u8) -> Answer<i64> {
    let of = if c.chroma {
        quern_chroma_damping
    } else {
        quern_luma_damping
    };
    answer(held, |out| {
        // SAFETY: as above.
        unsafe { of(c.signalled, c.depth, out) }
    })
}

#[inline]
pub fn log2_floor(c: &Log2Floor) -> Answer<i64> {
    // SAFETY: it accepts any number and no memory.
    let value = unsafe { quern_log2_floor(c.0) }.into();
    Answer { number: 0, value }
}

pub fn direction(c: &Direction, held: (u8, u32)) -> Answer<[i64; 2]> {
    let s = &c.0;
    let (mut direction, mut variance) = (Lent::new(held.0), Lent::new(held.1));
    // SAFETY: the plane has the length given; `out` twice as above.
    let number = unsafe {
        quern_direction(
            s.plane.as_ptr(),
            s.plane.len(),
            s.width,
            s.height,
            s.x,
            s.y,
            s.depth,
            direction.out(),
            variance.out(),
        )
    };
    let alone = direction.is_alone() && variance.is_alone();
    Answer {
        number: if alone { number } else { BESIDE },
        value: [direction.value(number), variance.value(number)],
    }
}

/// What the guards on both sides of a list hold; no filtered sample.
const HELD: u16 = 50_000;

/// The destination has guard rows.
pub fn filter(c: &Filter) -> Answer<Vec<u16>> {
    let (b, s) = (&c.block, &c.block.spot);
    let mut dst = List::new(&c.dst, 16 + 2 * s.width.min(SIDE_MAX), HELD);
    let lent = dst.lent();
    // SAFETY: destination and plane have the lengths given, and do not overlap.
    let number = unsafe {
        quern_filter_block(
            lent.as_mut_ptr(),
            lent.len(),
            c.y0,
            s.plane.as_ptr(),
            s.plane.len(),
            s.width,
            s.height,
            s.x,
            s.y,
            b.width,
            b.height,
            c.pri,
            c.sec,
            b.dir,
            b.damping,
            s.depth,
        )
    };
    dst.answer(number)
}

pub fn trial(c: &Trial) -> Answer<Vec<u16>> {
    let (b, s) = (&c.block, &c.block.spot);
    let mut list = List::new(&c.before(), 64, HELD);
    let number = bare::trial(
        list.lent(),
        &s.plane,
        (s.width, s.height),
        (s.x, s.y),
        (b.width, b.height),
        (c.luma == 1).then_some(c.variance),
        b.dir,
        b.damping,
        s.depth,
    );
    list.answer(number)
}

/// The weighted distance or the sum of squared differences.
pub fn distance(c: &Distance, held: i64) -> Answer<i64> {
    let s = &c.spot;
    answer(held, |out| {
        // SAFETY: the planes have the lengths given; `out` as above.
        unsafe {
            measure(c.weighted)(
                s.plane.as_ptr(),
                s.plane.len(),
                c.other.as_ptr(),
                c.other.len(),
                s.width,
                s.height,
                s.x,
                s.y,
                s.depth,
                out,
            )
        }
    })
}
