//! Which of the stated cases are stored: the limits, and some of each error code.
//! A line has as many samples as its sizes say, so others can't be stored.

use crate::SEED;
use support::block::Block;
use support::direction::Direction;
use support::distance::Distance;
use support::filter::Filter;
use support::random::Random;
use support::refusals::Stated;
use support::spot::Spot;
use support::trial::Trial;

/// Cases of each error code.
const EACH: usize = 12;

/// Numbers have at most 15 digits, which is what the reader of the sample accepts.
const END: usize = 10usize.pow(15);

/// The longest list of trial blocks.
const PLACES_END: usize = 1024;

pub fn directions() -> Vec<Direction<'static>> {
    chosen(Direction::limits(), Direction::asked(), |c| fits(&c.0))
}

pub fn filters() -> Vec<Filter<'static>> {
    chosen(Filter::limits(), Filter::asked(), |c| {
        let rows = c.dst_rows() * c.block.spot.width == c.dst.len();
        block_fits(&c.block) && rows && c.y0 < END
    })
}

pub fn trials() -> Vec<Trial<'static>> {
    chosen(Trial::limits(), Trial::asked(), |c| {
        block_fits(&c.block) && c.places <= PLACES_END
    })
}

pub fn distances(weighted: bool) -> Vec<Distance<'static>> {
    let (limits, asked) = (Distance::limits(weighted), Distance::asked(weighted));
    chosen(limits, asked, |c| {
        fits(&c.spot) && c.other.len() == c.spot.plane.len()
    })
}

/// All of the limits that fit, and some of the stated cases.
fn chosen<C>(limits: Vec<Stated<C>>, asked: Vec<Stated<C>>, fits: fn(&C) -> bool) -> Vec<C> {
    let mut list = some(limits, usize::MAX, fits);
    list.extend(some(asked, EACH, fits));
    list
}

fn block_fits(b: &Block) -> bool {
    fits(&b.spot) && b.width < END && b.height < END
}

fn fits(s: &Spot) -> bool {
    let whole = s.width.checked_mul(s.height) == Some(s.plane.len());
    whole && s.x < END && s.y < END
}

/// At most `each` cases of each error code, from anywhere in the list.
fn some<C>(cases: Vec<Stated<C>>, each: usize, fits: impl Fn(&C) -> bool) -> Vec<C> {
    let r = &mut Random::new(SEED);
    let mut by_number: Vec<Vec<C>> = (0..=9).map(|_| Vec::new()).collect();
    for (number, case) in cases {
        if fits(&case) {
            by_number[number as usize].push(case);
        }
    }
    let mut list = Vec::new();
    for mut cases in by_number {
        for _ in 0..each.min(cases.len()) {
            let at = r.below(cases.len() as u64) as usize;
            list.push(cases.swap_remove(at));
        }
    }
    list
}
