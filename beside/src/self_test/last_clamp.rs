//! The reference's last clamp, to 0..2^depth - 1: that it never acts where every examined sample
//! is below 2^depth or marked. The filter is mirrored up to that clamp.

use reference::MARK;
use support::random::Random;
use support::report::Tally;

/// The filter of one plane up to the last clamp, from RULES, Filter.
pub struct Mirror<'a> {
    pub plane: &'a [u16],
    pub width: usize,
    pub pri: u32,
    pub sec: u32,
    pub direction: u8,
    pub damping: u8,
    pub depth: u8,
}

impl Mirror<'_> {
    fn at(&self, x: i32, y: i32) -> i32 {
        reference::sample(self.plane, self.width, x, y)
    }

    /// The taps that count: (tap, weight, strength).
    fn taps(&self, x: i32, y: i32) -> Vec<(i32, i32, u32)> {
        let (directions, pri_taps, sec_taps) = reference::tables();
        let pri_weights = pri_taps[(self.pri >> (self.depth - 8) & 1) as usize];
        let mut taps = Vec::new();
        for k in 0..2 {
            for (turn, weight, strength) in [
                (0, pri_weights[k], self.pri),
                (2, sec_taps[k], self.sec),
                (6, sec_taps[k], self.sec),
            ] {
                let (row, column) = directions[(self.direction as usize + turn) & 7][k];
                for sign in [1, -1] {
                    let tap = self.at(x + sign * column, y + sign * row);
                    if tap != MARK.into() && strength != 0 {
                        taps.push((tap, weight, strength));
                    }
                }
            }
        }
        taps
    }

    pub fn unclipped(&self, x: i32, y: i32) -> i32 {
        let centre = self.at(x, y);
        let damping = self.damping.max(1);
        let sum: i32 = self
            .taps(x, y)
            .iter()
            .map(|&(tap, weight, s)| weight * reference::constrain_spec(tap - centre, s, damping))
            .sum();
        centre + ((8 + sum - i32::from(sum < 0)) >> 4)
    }

    /// Clipped where both strengths are nonzero; nothing for a marked centre.
    fn before_last_clamp(&self, x: i32, y: i32) -> Option<i32> {
        let centre = self.at(x, y);
        if centre == MARK.into() {
            return None;
        }
        let unclipped = self.unclipped(x, y);
        if self.pri == 0 || self.sec == 0 {
            return Some(unclipped);
        }
        let taps = self.taps(x, y);
        let (min, max) = taps
            .iter()
            .fold((centre, centre), |(a, b), t| (a.min(t.0), b.max(t.0)));
        Some(unclipped.clamp(min, max))
    }
}

pub fn check(tally: &mut Tally, r: &mut Random, long: bool) {
    weights(tally);
    for _ in 0..if long { 400_000 } else { 5_000 } {
        block(tally, r);
    }
}

/// Primary taps alone, or secondary ones, weigh 12 together, so no sum of theirs exceeds
/// 12 times the distance to the nearer end; then the result does not pass that end.
fn weights(tally: &mut Tally) {
    let (_, pri, sec) = reference::tables();
    for row in pri {
        tally.number("primary weights", 2 * (row[0] + row[1]), 12);
    }
    tally.number("secondary weights", 4 * (sec[0] + sec[1]), 12);
    for room in 0..4096i64 {
        let (up, down) = ((8 + 12 * room) >> 4, (8 - 12 * room - 1) >> 4);
        tally.number("most up", i64::from(up <= room), 1);
        tally.number("most down", i64::from(-room <= down), 1);
    }
}

/// A random block of a small plane, with marks here and there.
fn block(tally: &mut Tally, r: &mut Random) {
    let depth = r.between(8, 12) as u8;
    let (width, height) = (r.between(1, 14) as usize, r.between(1, 14) as usize);
    let mut plane = r.samples(width * height, depth);
    for _ in 0..r.pick(&[0, 0, 1, 5]) {
        let at = r.below(plane.len() as u64) as usize;
        plane[at] = MARK;
    }
    let block = Block {
        x: r.below(width as u64) as usize,
        y: r.below(height as u64) as usize,
        width: r.between(1, 8) as usize,
        height: r.between(1, 8) as usize,
    };
    let mirror = Mirror {
        plane: &plane,
        width,
        pri: r.pick(&[0, 1, 1]) * r.between(0, 15 << (depth - 8)) as u32,
        sec: r.pick(&[0, 1, 1]) * r.between(0, 4 << (depth - 8)) as u32,
        direction: r.below(8) as u8,
        damping: r.below(32) as u8,
        depth,
    };
    filter(tally, &mirror, &block);
    let variance = (r.below(3) != 0).then(|| r.of_bits(19) as u32);
    trial(tally, &mirror, &block, variance);
}

struct Block {
    x: usize,
    y: usize,
    width: usize,
    height: usize,
}

/// The block filter. Positions that are not written hold 65535 on both sides.
fn filter(tally: &mut Tally, m: &Mirror, b: &Block) {
    let mut got = vec![u16::MAX; m.plane.len()];
    reference::cdef_filter_block(
        &mut got,
        0,
        m.plane,
        m.width,
        b.x,
        b.y,
        b.width,
        b.height,
        m.pri,
        m.sec,
        m.direction,
        m.damping,
        m.depth,
    );
    let mut expected = vec![i64::from(u16::MAX); m.plane.len()];
    for y in b.y..(b.y + b.height).min(m.plane.len() / m.width) {
        for x in b.x..(b.x + b.width).min(m.width) {
            if let Some(v) = m.before_last_clamp(x as i32, y as i32) {
                expected[y * m.width + x] = v.into();
            }
        }
    }
    let got: Vec<i64> = got.into_iter().map(i64::from).collect();
    tally.same(&format!("filter, depth {}", m.depth), got, expected);
}

/// The twelve trial blocks. Elements past the block hold -1 on both sides.
fn trial(tally: &mut Tally, m: &Mirror, b: &Block, variance: Option<u32>) {
    let mut got = [[-1; 64]; 12];
    reference::cdef_block_candidates(
        m.plane,
        m.width,
        b.x,
        b.y,
        b.width,
        b.height,
        m.direction,
        variance,
        m.damping,
        m.depth,
        &mut got,
    );
    for (number, got) in got.iter().enumerate() {
        let signalled = [0, 1, 2, 4][number % 4];
        let shifted = signalled << (m.depth - 8);
        let tried = Mirror {
            pri: variance.map_or(shifted, |v| reference::adjust_pri(shifted, v)),
            sec: [0, 1, 2][number / 4] << (m.depth - 8),
            direction: if signalled == 0 { 0 } else { m.direction },
            ..*m
        };
        let mut expected = vec![-1i64; 64];
        for i in 0..b.width * b.height {
            let (x, y) = (b.x + i % b.width, b.y + i / b.width);
            let v = tried.before_last_clamp(x as i32, y as i32);
            expected[i] = v.unwrap_or(MARK.into()).into();
        }
        let got: Vec<i64> = got.iter().map(|&v| v.into()).collect();
        tally.same(&format!("trial {number}, depth {}", m.depth), got, expected);
    }
}
