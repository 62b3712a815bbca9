//! Cases of log2_floor.

use crate::Case;
use crate::random::Random;
use std::fmt::{Display, Formatter, Result};

/// The reference takes an i32, so its cases end at 2^31 - 1.
#[derive(Clone, Copy)]
pub struct Log2Floor(pub u32);

impl Log2Floor {
    /// 0, and each power of two with its neighbours.
    pub fn edges() -> Vec<Self> {
        let mut list = vec![0];
        for k in 0..31 {
            list.extend([(1u32 << k) - 1, 1 << k, (1 << k) + 1]);
        }
        list.push(i32::MAX as u32);
        list.into_iter().map(Log2Floor).collect()
    }

    pub fn random(r: &mut Random) -> Self {
        Log2Floor(r.of_bits(31) as u32)
    }
}

impl Display for Log2Floor {
    fn fmt(&self, f: &mut Formatter) -> Result {
        write!(f, "{}", self.0)
    }
}

impl Case for Log2Floor {
    type Value = i64;

    fn number(&self) -> u32 {
        0
    }

    #[inline]
    fn result(&self) -> i64 {
        reference::log2_floor(self.0).into()
    }
}
