//! Inputs that fail one check or two, with the error code stated with
//! each, so that the validation can be compared with it.

use crate::planes::{Plane, SIDE_MAX};
use crate::spot::{Area, Spot, WIDE_SIZES};
use reference::MARK;

/// A case and its error code by RULES, Questions, 0 where it is accepted.
pub type Stated<C> = (u32, C);

/// A change after which the check of that number fails, and none before it.
pub struct Break<C> {
    pub(crate) number: u32,
    change: Box<dyn Fn(&mut C)>,
}

impl<C: 'static> Break<C> {
    pub fn new(number: u32, change: impl Fn(&mut C) + 'static) -> Self {
        let change = Box::new(change);
        Break { number, change }
    }

    pub(crate) fn make(&self, c: &mut C) {
        (self.change)(c);
    }

    /// The same change of a case that has such a part.
    pub fn of_part<D: 'static>(self, part: fn(&mut D) -> &mut C) -> Break<D> {
        Break::new(self.number, move |c| (self.change)(part(c)))
    }

    /// The same change of a case with its planes exchanged, and back.
    pub(crate) fn turned(self, turn: fn(&mut C)) -> Self {
        Break::new(self.number, move |c| {
            turn(c);
            (self.change)(c);
            turn(c);
        })
    }
}

/// The same changes of a case that has such a part.
pub(crate) fn of_parts<C: 'static, D: 'static>(
    list: Vec<Break<C>>,
    part: fn(&mut D) -> &mut C,
) -> Vec<Break<D>> {
    list.into_iter().map(|b| b.of_part(part)).collect()
}

/// Each change of a good case, alone.
pub(crate) fn alone<C: Clone + 'static>(
    good: &C,
    changes: &[Break<C>],
) -> impl Iterator<Item = Stated<C>> {
    changes.iter().map(|b| {
        let mut c = good.clone();
        b.make(&mut c);
        (b.number, c)
    })
}

/// Each good case, each break of it, and each two breaks of different numbers.
pub fn broken<C: Clone + 'static>(good: &[C], breaks: &[Break<C>]) -> Vec<Stated<C>> {
    let mut list = Vec::new();
    for c in good {
        list.push((0, c.clone()));
        for one in breaks {
            let mut broken = c.clone();
            one.make(&mut broken);
            list.push((one.number, broken));
            for later in breaks.iter().filter(|b| b.number > one.number) {
                // The later first: it goes by numbers that the other one changes.
                let mut broken = c.clone();
                later.make(&mut broken);
                one.make(&mut broken);
                list.push((one.number, broken));
            }
        }
    }
    list
}

/// 1, 2, 4 and 5, as far as they concern a plane and a position on it.
pub fn spot_breaks() -> Vec<Break<Spot<'static>>> {
    type S = Spot<'static>;
    let mut list = Vec::new();
    for depth in [0, 7, 13, 255] {
        list.push(Break::new(1, move |s: &mut S| s.depth = depth));
    }
    for side in [0, SIDE_MAX + 1, usize::MAX] {
        list.push(Break::new(2, move |s: &mut S| s.width = side));
        list.push(Break::new(2, move |s: &mut S| s.height = side));
    }
    for more in &WIDE_SIZES[1..] {
        list.push(Break::new(2, move |s: &mut S| s.width += more));
        list.push(Break::new(2, move |s: &mut S| s.height += more));
        list.push(Break::new(5, move |s: &mut S| s.x += more));
        list.push(Break::new(5, move |s: &mut S| s.y += more));
    }
    list.push(Break::new(4, |s: &mut S| s.plane.to_mut().push(0)));
    list.push(Break::new(4, |s: &mut S| {
        s.plane.to_mut().pop();
    }));
    list.push(Break::new(4, |s: &mut S| s.plane.to_mut().clear()));
    list.push(Break::new(4, |s: &mut S| s.width += 1));
    list.push(Break::new(4, |s: &mut S| s.height += 1));
    list.push(Break::new(5, |s: &mut S| s.x = s.width));
    list.push(Break::new(5, |s: &mut S| s.y = s.height));
    list.push(Break::new(5, |s: &mut S| s.x = usize::MAX));
    list.push(Break::new(5, |s: &mut S| s.y = usize::MAX));
    list
}

/// 9: one sample in each corner of what is examined.
pub fn corner_breaks<C: 'static>(
    area: fn(&C) -> Area,
    spot: fn(&mut C) -> &mut Spot<'static>,
) -> Vec<Break<C>> {
    let mut list = Vec::new();
    for (bottom, right) in [(false, false), (false, true), (true, false), (true, true)] {
        for most in [false, true] {
            list.push(Break::new(9, move |c: &mut C| {
                let Area { rows, columns } = area(c);
                let s = spot(c);
                let y = if bottom { rows.end - 1 } else { rows.start };
                let x = if right {
                    columns.end - 1
                } else {
                    columns.start
                };
                let sample = if most { u16::MAX } else { 1 << s.depth };
                s.plane.to_mut()[y * s.width + x] = sample;
            }));
        }
    }
    list
}

/// Each position of the plane in turn holds a sample at or past the end of its range.
/// It counts in a block of that size at the spot, widened on each side.
pub fn scan(
    good: &Spot<'static>,
    (block_width, block_height): (usize, usize),
    widened: usize,
    with_mark: bool,
) -> Vec<Stated<Spot<'static>>> {
    let mut list = Vec::new();
    let near = |at: usize, from: usize, length: usize| {
        at + widened >= from && at < from + length + widened
    };
    for y in 0..good.height {
        for x in 0..good.width {
            let counts = near(x, good.x, block_width) && near(y, good.y, block_height);
            let limit = 1 << good.depth;
            for sample in [limit - 1, limit, MARK - 1, MARK, MARK + 1, u16::MAX] {
                let taken = sample < limit || (with_mark && sample == MARK);
                let mut s = good.clone();
                s.plane.to_mut()[y * s.width + x] = sample;
                list.push((if counts && !taken { 9 } else { 0 }, s));
            }
        }
    }
    list
}

/// Planes of which good cases are made: size, depth, and a block.
pub(crate) const GOOD: [((usize, usize), u8, [usize; 4]); 4] = [
    ((19, 17), 10, [6, 5, 8, 8]),
    ((12, 13), 8, [0, 0, 5, 3]),
    ((11, 14), 12, [8, 11, 8, 8]),
    ((2, 3), 9, [1, 1, 2, 1]),
];

/// The last position of a plane of depth 8.
pub(crate) fn last_spot(width: usize, height: usize) -> Spot<'static> {
    let samples = (0..width * height).map(|k| (k / 3 % 10) as u16);
    let plane = Plane::new(samples.collect(), width, height, 8);
    let (x, y) = (width.saturating_sub(1), height.saturating_sub(1));
    plane.spot(x, y).owned()
}

/// Sides at their limits, with planes that fit, and an empty plane of depth 7.
pub(crate) fn side_limits<C>(of: impl Fn(Spot<'static>) -> C) -> Vec<Stated<C>> {
    let mut nothing = last_spot(0, 0);
    nothing.depth = 7;
    vec![
        (0, of(last_spot(SIDE_MAX, 1))),
        (0, of(last_spot(1, SIDE_MAX))),
        (2, of(last_spot(SIDE_MAX + 1, 1))),
        (2, of(last_spot(1, SIDE_MAX + 1))),
        (2, of(last_spot(0, 5))),
        (2, of(last_spot(5, 0))),
        (2, of(last_spot(0, 0))),
        (1, of(nothing)),
    ]
}
