//! Pairs of blocks of depth 12 built so that the weighted distance shows how its steps
//! were rounded.

use crate::random::Random;

const C1: i64 = 400 << 8;
pub const C2: i64 = 20_000 << 16;

/// Below it an f64 of that size is a multiple of 4, from it on of 8.
pub const TOP: i64 = 1 << 55;

/// The largest sample.
const MOST: i64 = 4095;

/// Random changes made where no step gets nearer: with one alone the next would undo it.
const KICKS: usize = 4;

type Block = [i64; 64];

pub struct Built {
    pub original: Block,
    pub other: Block,
}

impl Built {
    /// a × b lies so near under 2^55 that the result shows whether c2 and a × b are
    /// rounded each and then added, as in RULES, Distance, or their sum is rounded once.
    /// No random blocks do: under 2^55 − c2 both ways are the same, and above they differ
    /// by one unit in the square root's last place.
    pub fn under_top(r: &mut Random) -> Self {
        loop {
            let other = strong(r);
            let b = variance(&other);
            let part = |a: &i64| weight(*a, b, true) != weight(*a, b, false);
            let Some(a) = ((TOP - C2) / b + 1..=(TOP - 1) / b).find(part) else {
                continue;
            };
            let original = of_variance(strong(r), a, r);
            let mut built = Built { original, other };
            if let Some(e) = built.telling(r) {
                built.rearrange(e, r);
                return built;
            }
        }
    }

    /// One block nearly flat and one of both ends, so that the distance is large, on a
    /// level where e × weight is near to a half: one unit in the last place of any step
    /// often moves the result.
    pub fn loud(r: &mut Random) -> Self {
        let far = r.pick(&[0, 1, 2, 15]);
        let mut built = Built {
            original: std::array::from_fn(|_| r.between(0, far)),
            other: std::array::from_fn(|_| r.pick(&[0, MOST])),
        };
        let (e, weight) = (built.squares(), built.weight(false));
        let apart = built.other.iter().sum::<i64>() - built.original.iter().sum::<i64>();
        let off_half = |&level: &i64| {
            let e = e - 2 * level * apart + 64 * level * level;
            let part = (e as f64 * weight).fract();
            ((part - 0.5).abs() * TOP as f64) as u64
        };
        let level = (0..=MOST - far).min_by_key(off_half).unwrap_or(0);
        built.original = built.original.map(|v| v + level);
        if r.below(2) == 0 {
            std::mem::swap(&mut built.original, &mut built.other);
        }
        built
    }

    /// a × b.
    pub fn product(&self) -> i64 {
        variance(&self.original) * variance(&self.other)
    }

    /// The distance, with the sum under the square root rounded once or as it should be.
    pub fn distance(&self, once: bool) -> i64 {
        cut(self.squares(), self.weight(once))
    }

    fn weight(&self, once: bool) -> f64 {
        weight(variance(&self.original), variance(&self.other), once)
    }

    /// e.
    fn squares(&self) -> i64 {
        let both = self.original.iter().zip(&self.other);
        both.map(|(s, d)| (s - d) * (s - d)).sum()
    }

    /// A sum of squared differences that lets the two ways of rounding give two results,
    /// and that another order of the samples can have.
    fn telling(&self, r: &mut Random) -> Option<i64> {
        let (twice, once) = (self.weight(false), self.weight(true));
        let excess = twice - 1.0;
        let odd = self.squares() & 1;
        let from = (r.between(200_000_000, 400_000_000) as f64 * excess) as i64;
        // e × weight is near to a half for an e near these.
        (from..from + 60_000).find_map(|half| {
            let e = ((half as f64 + 0.5) / excess).round() as i64;
            let mut near = e - 1..=e + 1;
            near.find(|e| e & 1 == odd && cut(*e, twice) != cut(*e, once))
        })
    }

    /// Exchanges samples of the other block, each time the two after which the sum of
    /// squares is nearest, until it is as wanted.
    fn rearrange(&mut self, wanted: i64, r: &mut Random) {
        loop {
            let missing = wanted - self.squares();
            if missing == 0 {
                return;
            }
            let (s, d) = (&self.original, &mut self.other);
            let mut best = (missing.abs(), None);
            for i in 0..64 {
                for j in 0..i {
                    let left = missing - 2 * (s[i] - s[j]) * (d[i] - d[j]);
                    if left.abs() < best.0 {
                        best = (left.abs(), Some((i, j)));
                    }
                }
            }
            match best.1 {
                Some((i, j)) => d.swap(i, j),
                None => (0..KICKS).for_each(|_| d.swap(r.below(64) as usize, r.below(64) as usize)),
            }
        }
    }
}

fn weight(a: i64, b: i64, once: bool) -> f64 {
    let under = if once {
        (C2 + a * b) as f64
    } else {
        C2 as f64 + a as f64 * b as f64
    };
    0.5 * (a as f64 + b as f64 + C1 as f64) / under.sqrt()
}

fn cut(e: i64, weight: f64) -> i64 {
    (0.5 + e as f64 * weight) as i64
}

/// Low and high samples and four in the middle: a near the square root of 2^55.
fn strong(r: &mut Random) -> Block {
    std::array::from_fn(|k| match k {
        0..30 => r.between(0, 600),
        30..60 => r.between(MOST - 600, MOST),
        _ => r.between(2000, 2100),
    })
}

/// The sums of the samples and of their squares.
fn sums(block: &Block) -> (i64, i64) {
    (block.iter().sum(), block.iter().map(|v| v * v).sum())
}

/// a, from those sums.
fn variance_of((sum, squares): (i64, i64)) -> i64 {
    squares - ((sum * sum + 32) >> 6)
}

fn variance(block: &Block) -> i64 {
    variance_of(sums(block))
}

/// Moves samples, each time the one after which a is nearest, until a is as wanted.
fn of_variance(mut block: Block, wanted: i64, r: &mut Random) -> Block {
    loop {
        let (sum, squares) = sums(&block);
        let missing = wanted - variance_of((sum, squares));
        if missing == 0 {
            return block;
        }
        let mean = sum as f64 / 64.0;
        let mut best = (missing.abs(), None);
        for (k, &v) in block.iter().enumerate() {
            let off = v as f64 - mean;
            let far = (off * off + missing as f64).max(0.0).sqrt();
            for moved in [mean + far, mean - far] {
                let to = (moved.round() as i64).clamp(0, MOST);
                let left = wanted - variance_of((sum + to - v, squares + to * to - v * v));
                if left.abs() < best.0 {
                    best = (left.abs(), Some((k, to)));
                }
            }
        }
        match best.1 {
            Some((k, to)) => block[k] = to,
            None => (0..KICKS).for_each(|_| block[r.below(64) as usize] = r.between(0, MOST)),
        }
    }
}
