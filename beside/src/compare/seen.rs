//! Which values occurred among the cases.

use crate::drawn::size_number;
use support::block::Block;
use support::constrain::DAMPING_MAX;
use support::planes::SMALL;
use support::report::Tally;

pub struct Seen {
    name: &'static str,
    values: Vec<bool>,
}

impl Seen {
    /// Values 0 to `count` - 1.
    pub fn new(name: &'static str, count: usize) -> Self {
        let values = vec![false; count];
        Seen { name, values }
    }

    /// Another value is not counted.
    pub fn see(&mut self, value: usize) {
        if let Some(seen) = self.values.get_mut(value) {
            *seen = true;
        }
    }

    /// Each value must have occurred.
    pub fn check(&self, tally: &mut Tally) {
        let seen = self.values.iter().filter(|&&v| v).count();
        tally.number(self.name, seen as i64, self.values.len() as i64);
    }
}

/// What occurred among the blocks of filter or trial.
pub struct BlockSeen {
    sizes: Seen,
    blocks: Seen,
    directions: Seen,
    dampings: Seen,
}

impl BlockSeen {
    pub fn new() -> Self {
        BlockSeen {
            sizes: Seen::new("plane sizes", SMALL * SMALL),
            blocks: Seen::new("block sizes", 64),
            directions: Seen::new("directions", 8),
            dampings: Seen::new("dampings", DAMPING_MAX as usize + 1),
        }
    }

    pub fn see(&mut self, b: &Block) {
        self.sizes.see(size_number(&b.spot));
        self.blocks.see((b.height - 1) * 8 + b.width - 1);
        self.directions.see(b.dir as usize);
        self.dampings.see(b.damping as usize);
    }

    pub fn check(&self, tally: &mut Tally) {
        for seen in [&self.sizes, &self.blocks, &self.directions, &self.dampings] {
            seen.check(tally);
        }
    }
}
