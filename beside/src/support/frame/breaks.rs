//! Changes of the numbers and lists of a picture, each with the error code (RULES, Questions)
//! of the result; the calls on pictures gather theirs from here.

use super::{DampingChoice, Kind, Picture, Size};
use crate::adjust_pri::VARIANCE_MAX;
use crate::planes::SIDE_MAX;
use crate::random::Random;
use crate::refusals::{Break, of_parts};
use crate::spot::WIDE_SIZES;
use reference::MARK;

type Part<C, T> = fn(&mut C) -> &mut T;

/// Signalled strengths that no call accepts.
pub(crate) const PRIMARIES: [u8; 4] = [16, 17, 128, 255];
pub(crate) const SECONDARIES: [u8; 5] = [3, 5, 6, 128, 255];

/// A number is another one.
pub(crate) fn numbers<C: 'static, T: Copy + 'static>(
    number: u32,
    part: Part<C, T>,
    values: &[T],
) -> Vec<Break<C>> {
    let set = |&value| Break::new(number, move |c| *part(c) = value);
    values.iter().map(set).collect()
}

/// A size is larger by that much.
pub(crate) fn larger<C: 'static>(number: u32, part: Part<C, usize>, by: &[usize]) -> Vec<Break<C>> {
    let add = |&by| Break::new(number, move |c| *part(c) = part(c).wrapping_add(by));
    by.iter().map(add).collect()
}

/// A list has one element more, one less, none, and twice as many.
pub(crate) fn lengths<C: 'static, T: Copy + Default + 'static>(
    number: u32,
    list: Part<C, Vec<T>>,
) -> Vec<Break<C>> {
    vec![
        Break::new(number, move |c| list(c).push(T::default())),
        Break::new(number, move |c| {
            list(c).pop();
        }),
        Break::new(number, move |c| list(c).clear()),
        Break::new(number, move |c| list(c).extend_from_within(..)),
    ]
}

/// The first or the last element of a list holds a value.
pub(crate) fn values<C: 'static, T: Copy + 'static>(
    number: u32,
    list: Part<C, Vec<T>>,
    values: &[T],
) -> Vec<Break<C>> {
    let ends = |&value: &T| {
        let put = move |place: Option<&mut T>| {
            if let Some(place) = place {
                *place = value;
            }
        };
        [
            Break::new(number, move |c| put(list(c).first_mut())),
            Break::new(number, move |c| put(list(c).last_mut())),
        ]
    };
    values.iter().flat_map(ends).collect()
}

/// Each element of a list in turn holds each value, which is paired with its error code.
pub(crate) fn scan<C: 'static, T: Copy + 'static>(
    list: Part<C, Vec<T>>,
    places: usize,
    values: &[(u32, T)],
) -> Vec<Break<C>> {
    let at = |place| {
        let set = move |&(number, value)| Break::new(number, move |c| list(c)[place] = value);
        values.iter().map(set)
    };
    (0..places).flat_map(at).collect()
}

/// 9: a sample at the first, the middle or the last position of a plane.
pub(crate) fn samples<C: 'static>(depth: fn(&C) -> u8, plane: Part<C, Vec<u16>>) -> Vec<Break<C>> {
    let mut list = Vec::new();
    for half in 0..3 {
        for sample in [None, Some(MARK), Some(u16::MAX)] {
            list.push(Break::new(9, move |c| {
                let limit = 1u16.checked_shl(depth(c).into()).unwrap_or(MARK);
                let samples = plane(c);
                let place = samples.len().saturating_sub(1) * half / 2;
                if let Some(v) = samples.get_mut(place) {
                    *v = sample.unwrap_or(limit);
                }
            }));
        }
    }
    list
}

/// Each position of a plane in turn holds a sample at or past the end of its range.
pub(crate) fn sample_scan<C: 'static>(
    plane: Part<C, Vec<u16>>,
    places: usize,
    depth: u8,
) -> Vec<Break<C>> {
    let limit = 1 << depth;
    let past = [limit, MARK - 1, MARK, MARK + 1, u16::MAX].map(|v| (9, v));
    scan(plane, places, &[&[(0, limit - 1)], &past[..]].concat())
}

/// A sample out of range somewhere.
pub(crate) fn spoil_sample(plane: &mut [u16], depth: u8, r: &mut Random) {
    if !plane.is_empty() {
        let past = r.between(1 << depth.clamp(8, 12), 65_535) as u16;
        let place = r.below(plane.len() as u64) as usize;
        plane[place] = r.pick(&[past, MARK]);
    }
}

/// 1 and 2, and 4 of sides that the planes don't fit.
pub(crate) fn of_size() -> Vec<Break<Size>> {
    let mut list = numbers(1, |s: &mut Size| &mut s.depth, &[0, 7, 13, 255]);
    let sides: [Part<Size, usize>; 2] = [|s| &mut s.width, |s| &mut s.height];
    for side in sides {
        let near = [0, 4, 12, SIDE_MAX - 1, SIDE_MAX + 1, SIDE_MAX + 8];
        list.extend(numbers(2, side, &near));
        list.extend(numbers(2, side, &[usize::MAX - 7, usize::MAX]));
        list.extend(larger(2, side, &[1, 4]));
        list.extend(larger(2, side, &WIDE_SIZES[1..]));
        list.extend(larger(4, side, &[8]));
    }
    list
}

/// What trying, measuring and applying have in common.
pub(crate) fn of_picture(kind: Kind) -> Vec<Break<Picture>> {
    type P = Picture;
    let mut list = of_parts(of_size(), |p: &mut P| &mut p.size);
    list.extend(lengths(7, |p: &mut P| &mut p.skip));
    list.extend(lengths(7, |p: &mut P| &mut p.dirs));
    list.extend(values(8, |p: &mut P| &mut p.skip, &[2, 3, 255]));
    list.extend(values(8, |p: &mut P| &mut p.dirs, &[8, 9, 255]));
    list.extend(of_parts(dampings(), |p: &mut P| &mut p.damping));
    if kind == Kind::Luma {
        let past = [VARIANCE_MAX + 1, 1 << 20, 1 << 31, u32::MAX];
        list.extend(lengths(7, |p: &mut P| &mut p.vars));
        list.extend(values(8, |p: &mut P| &mut p.vars, &past));
    } else {
        list.extend(flags());
    }
    list
}

/// 3, and 4 of a plane that doesn't fit its flags.
fn flags() -> Vec<Break<Picture>> {
    let of = |number, change: fn(u8, u8) -> u8, by: u8| {
        [false, true].map(|down| {
            Break::new(number, move |p: &mut Picture| {
                if let Kind::Chroma { sx, sy } = &mut p.kind {
                    let flag = if down { sy } else { sx };
                    *flag = change(*flag, by);
                }
            })
        })
    };
    let mut list = Vec::from(of(4, |flag, by| flag ^ by, 1));
    for value in [2, 3, 128, 255] {
        list.extend(of(3, |_, value| value, value));
    }
    list
}

/// The damping is given in another way.
fn told(number: u32, signalled: u8, unstated: u8) -> Break<DampingChoice> {
    let choice = DampingChoice {
        signalled,
        unstated,
    };
    Break::new(number, move |d| *d = choice)
}

/// 8, of a figure given, and of the flag with a figure in range and with one out of range.
fn dampings() -> Vec<Break<DampingChoice>> {
    let mut list = Vec::from([0, 2, 7, 128, 255].map(|signalled| told(8, signalled, 0)));
    for unstated in [2, 3, 128, 255] {
        list.extend([3, 7].map(|signalled| told(8, signalled, unstated)));
    }
    list
}

/// Values that are accepted, and values that aren't, in each element of a picture's lists, and
/// dampings that are accepted.
pub(crate) fn picture_scans(p: &Picture) -> Vec<Break<Picture>> {
    type P = Picture;
    let flags = [(0, 0), (0, 1), (8, 2), (8, 128), (8, 255)];
    let dirs = [(0, 0), (0, 7), (8, 8), (8, 255)];
    let vars = [(0, 0), (0, VARIANCE_MAX), (8, VARIANCE_MAX + 1)];
    let mut list = scan(|p: &mut P| &mut p.skip, p.skip.len(), &flags);
    list.extend(scan(|p: &mut P| &mut p.dirs, p.dirs.len(), &dirs));
    list.extend(scan(|p: &mut P| &mut p.vars, p.vars.len(), &vars));
    let mut dampings = Vec::from([3, 6].map(|signalled| told(0, signalled, 0)));
    dampings.extend((0..=255).map(|signalled| told(0, signalled, 1)));
    list.extend(of_parts(dampings, |p: &mut P| &mut p.damping));
    list
}
