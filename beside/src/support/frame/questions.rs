//! The questions (RULES, Questions) for the calls on pictures, written from the rules alone:
//! the error code, which is the number of the first check that fails, or 0.

use super::applying::Applying;
use super::comparing::Compared;
use super::direction_pass::DirectionPass;
use super::measuring::Measuring;
use super::trying::Trying;
use super::{DampingChoice, Kind, Picture, Size};

/// 1, 2, 4, 7 and 9.
pub fn direction_pass(c: &DirectionPass) -> u32 {
    let Size { width, height, .. } = c.size;
    let number = of_size(&c.size);
    if number != 0 {
        return number;
    }
    let blocks = (width / 8) * (height / 8);
    if c.plane.len() != width * height {
        4
    } else if c.dirs.len() != blocks || c.vars.len() != blocks {
        7
    } else {
        of_samples(&c.size, &[&c.plane])
    }
}

/// 1, 2, 3, 4, 7, 8 and 9.
pub fn trying(c: &Trying) -> u32 {
    let Compared { picture, .. } = &c.compared;
    let lists = || c.totals.len() == 12 * picture.size.units();
    of_compared(&c.compared, lists, true)
}

/// As trying; the pair too.
pub fn measuring(c: &Measuring) -> u32 {
    let Compared { picture, .. } = &c.compared;
    let lists = || {
        let (plane_width, _) = picture.kind.sides(&picture.size);
        let block_height = match picture.kind {
            Kind::Chroma { sy: 1, .. } => 4,
            _ => 8,
        };
        c.totals.len() == picture.size.units() && c.scratch.len() == plane_width * block_height
    };
    let pair = primary_taken(&c.primary) && secondary_taken(&c.secondary);
    of_compared(&c.compared, lists, pair)
}

/// As trying, without an original or a visible size; the pairs too.
pub fn applying(c: &Applying) -> u32 {
    let units = || c.picture.size.units();
    let lists = || c.primaries.len() == units() && c.secondaries.len() == units();
    let pairs = c.primaries.iter().all(primary_taken) && c.secondaries.iter().all(secondary_taken);
    let number = of_picture(&c.picture, &[&c.snapshot, &c.dst], lists, pairs);
    if number != 0 {
        return number;
    }
    of_samples(&c.picture.size, &[&c.snapshot])
}

fn primary_taken(strength: &u8) -> bool {
    *strength <= 15
}

fn secondary_taken(strength: &u8) -> bool {
    [0, 1, 2, 4].contains(strength)
}

fn of_compared(c: &Compared, lists: impl Fn() -> bool, values: bool) -> u32 {
    let size = &c.picture.size;
    let visible = || {
        (1..=size.width).contains(&c.visible_width) && (1..=size.height).contains(&c.visible_height)
    };
    let planes = [&c.plane, &c.original];
    let number = of_picture(&c.picture, &planes, || lists() && visible(), values);
    if number != 0 {
        return number;
    }
    of_samples(size, &planes)
}

/// 1 to 8, with a call's own part of 7 and of 8.
fn of_picture(p: &Picture, planes: &[&Vec<u16>], lists: impl Fn() -> bool, values: bool) -> u32 {
    let number = of_size(&p.size);
    if number != 0 {
        return number;
    }
    if let Kind::Chroma { sx, sy } = p.kind
        && (sx > 1 || sy > 1)
    {
        return 3;
    }
    let (width, height) = p.kind.sides(&p.size);
    if planes.iter().any(|plane| plane.len() != width * height) {
        4
    } else if !listed(p) || !lists() {
        7
    } else if !in_range(p) || !values {
        8
    } else {
        0
    }
}

/// 1 and 2.
fn of_size(s: &Size) -> u32 {
    let taken = |side: usize| (1..=4096).contains(&side) && side.is_multiple_of(8);
    if !(8..=12).contains(&s.depth) {
        1
    } else if !taken(s.width) || !taken(s.height) {
        2
    } else {
        0
    }
}

/// One flag, direction and variance per block.
fn listed(p: &Picture) -> bool {
    let blocks = (p.size.width / 8) * (p.size.height / 8);
    let variances = p.kind != Kind::Luma || p.vars.len() == blocks;
    p.skip.len() == blocks && p.dirs.len() == blocks && variances
}

fn in_range(p: &Picture) -> bool {
    let DampingChoice {
        signalled,
        unstated,
    } = p.damping;
    let damping = match unstated {
        0 => (3..=6).contains(&signalled),
        flag => flag == 1,
    };
    let flags = p.skip.iter().all(|&s| s <= 1);
    let directions = p.dirs.iter().all(|&d| d < 8);
    let variances = p.kind != Kind::Luma || p.vars.iter().all(|&v| v <= 860_160);
    damping && flags && directions && variances
}

/// 9, of whole planes.
fn of_samples(size: &Size, planes: &[&Vec<u16>]) -> u32 {
    let taken = |plane: &&Vec<u16>| plane.iter().all(|&v| v >> size.depth == 0);
    if planes.iter().all(taken) { 0 } else { 9 }
}
