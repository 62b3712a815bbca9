//! Rounds in turn, and their medians.

use support::counts::processor_time;

/// A round of any side lasts at least as many seconds of processor time as this.
pub const ROUND: f64 = 0.006;

/// A median and its spread.
#[derive(Clone, Copy)]
pub struct Median {
    pub value: f64,
    /// Half of the interquartile range, in percent.
    pub spread: f64,
}

impl Median {
    fn new(mut values: Vec<f64>) -> Self {
        values.sort_by(f64::total_cmp);
        let at = |quarter: usize| values[(values.len() - 1) * quarter / 4];
        Median {
            value: at(2),
            spread: (at(3) - at(1)) / 2.0 / at(2) * 100.0,
        }
    }
}

/// The rounds of one side, in nanoseconds per block.
pub struct Rounds(pub Vec<f64>);

impl Rounds {
    pub fn median(&self) -> Median {
        Median::new(self.0.clone())
    }

    /// The ratio of this side's time to another's, round by round.
    pub fn ratio(&self, other: &Rounds) -> Median {
        let both = self.0.iter().zip(&other.0);
        Median::new(both.map(|(time, other)| time / other).collect())
    }
}

/// One side's pass over the blocks.
pub type Pass<'a> = Box<dyn FnMut() + 'a>;

/// Times passes over the same blocks, in turn; each round begins with another one.
pub fn in_turn(rounds: usize, blocks: usize, passes: Vec<Pass>) -> Vec<Rounds> {
    let mut sides: Vec<Side> = passes.into_iter().map(|p| Side::new(p, blocks)).collect();
    let count = sides.len();
    for round in 0..rounds {
        for k in 0..count {
            sides[(round + k) % count].round();
        }
    }
    sides.into_iter().map(|side| Rounds(side.times)).collect()
}

struct Side<'a> {
    pass: Pass<'a>,
    blocks: usize,
    passes: u32,
    times: Vec<f64>,
}

impl<'a> Side<'a> {
    /// With as many passes per round as it takes to last that long, counted after a warm-up pass.
    fn new(mut pass: Pass<'a>, blocks: usize) -> Self {
        pass();
        let start = processor_time();
        let mut passes = 0;
        while processor_time() - start < ROUND {
            pass();
            passes += 1;
        }
        Side {
            pass,
            blocks,
            passes,
            times: Vec::new(),
        }
    }

    fn round(&mut self) {
        let start = processor_time();
        for _ in 0..self.passes {
            (self.pass)();
        }
        let blocks = self.blocks as f64 * f64::from(self.passes);
        self.times.push((processor_time() - start) * 1e9 / blocks);
    }
}
