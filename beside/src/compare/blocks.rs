//! Direction and block filter: random planes of every size and depth, many blocks per
//! plane, and rejected calls.

use crate::drawn::{BLOCKS, any_plane, each_plane, size_number};
use crate::seen::{BlockSeen, Seen};
use support::direction::Direction;
use support::filter::{self, Filter, strengths_max};
use support::planes::{DEPTHS, SMALL};
use support::random::Random;
use support::report::{Report, Tally};

/// What direction and variance hold before a call: no call's result.
const HELD: (u8, u32) = (u8::MAX, u32::MAX);

pub fn compare(report: &mut Report, long: bool, seed: u64) {
    let times = |rounds| if long { rounds } else { 1 };
    report.call("direction", |tally| direction(tally, times(200), seed));
    report.call("direction_refusals", |tally| {
        direction_refusals(tally, times(100), seed)
    });
    report.call("filter", |tally| filter(tally, times(540), seed));
    report.call("filter_refusals", |tally| {
        filter_refusals(tally, times(100), seed)
    });
}

fn direction(tally: &mut Tally, rounds: usize, seed: u64) {
    let mut sizes = Seen::new("plane sizes", SMALL * SMALL);
    let mut found = Seen::new("directions found", 8);
    let mut altered = 0;
    for c in Direction::edges() {
        tally.case(&c, ours::direction(&c, HELD));
    }
    each_plane(&mut Random::new(seed), rounds, |r, plane, blocks| {
        let kept = plane.samples.clone();
        for _ in 0..blocks {
            let c = Direction::on(&plane, r);
            let answer = ours::direction(&c, HELD);
            if answer.number == 0 {
                found.see(answer.value[0] as usize);
                sizes.see(size_number(&c.0));
            }
            tally.case(&c, answer);
        }
        altered += i64::from(plane.samples != kept);
    });
    tally.number("planes altered", altered, 0);
    sizes.check(tally);
    found.check(tally);
}

fn filter(tally: &mut Tally, rounds: usize, seed: u64) {
    let mut seen = FilterSeen::new();
    let mut altered = 0;
    for c in Filter::edges() {
        tally.case(&c, ours::filter(&c));
    }
    each_plane(&mut Random::new(seed), rounds, |r, plane, blocks| {
        let plane = plane.marked(r);
        let under = filter::under(&plane, r);
        let kept = plane.samples.clone();
        for _ in 0..blocks {
            let c = Filter::on(&plane, &under, r);
            let answer = ours::filter(&c);
            if answer.number == 0 {
                seen.see(&c);
            }
            tally.case(&c, answer);
        }
        altered += i64::from(plane.samples != kept);
    });
    tally.number("planes altered", altered, 0);
    seen.check(tally);
}

/// Which values were among the blocks filtered.
struct FilterSeen {
    blocks: BlockSeen,
    primaries: Vec<Seen>,
    secondaries: Vec<Seen>,
}

impl FilterSeen {
    fn new() -> Self {
        let each = |name, most: fn(u8) -> u32| {
            let of = |depth| Seen::new(name, most(depth) as usize + 1);
            DEPTHS.map(of).collect()
        };
        FilterSeen {
            blocks: BlockSeen::new(),
            primaries: each("primary strengths", |depth| strengths_max(depth).0),
            secondaries: each("secondary strengths", |depth| strengths_max(depth).1),
        }
    }

    fn see(&mut self, c: &Filter) {
        let of_depth = c.block.spot.depth as usize - 8;
        self.blocks.see(&c.block);
        self.primaries[of_depth].see(c.pri as usize);
        self.secondaries[of_depth].see(c.sec as usize);
    }

    fn check(&self, tally: &mut Tally) {
        self.blocks.check(tally);
        for seen in self.primaries.iter().chain(&self.secondaries) {
            seen.check(tally);
        }
    }
}

/// Cases that fail each check, and any, with two numbers held in each output.
fn direction_refusals(tally: &mut Tally, rounds: usize, seed: u64) {
    let both = |tally: &mut Tally, c: &Direction| {
        for held in [HELD, (77, 12_345)] {
            tally.case(c, ours::direction(c, held));
        }
    };
    for (_, c) in Direction::stated() {
        both(tally, &c);
    }
    any_plane(&mut Random::new(seed), rounds, |r, plane| {
        for _ in 0..BLOCKS {
            both(tally, &Direction::any(&plane, r));
        }
    });
}

fn filter_refusals(tally: &mut Tally, rounds: usize, seed: u64) {
    for (_, c) in Filter::stated() {
        tally.case(&c, ours::filter(&c));
    }
    any_plane(&mut Random::new(seed), rounds, |r, plane| {
        let plane = plane.marked(r);
        let under = filter::under(&plane, r);
        for _ in 0..BLOCKS {
            let c = Filter::any(&plane, &under, r);
            tally.case(&c, ours::filter(&c));
        }
    });
}
