//! Cases of adjust_pri.

use crate::random::Random;
use crate::{Case, STRENGTH_MAX, WIDE};
use std::fmt::{Display, Formatter, Result};

pub const VARIANCE_MAX: u32 = 860_160;

#[derive(Clone, Copy)]
pub struct AdjustPri {
    pub strength: u32,
    pub variance: u32,
}

impl AdjustPri {
    pub fn new(strength: u32, variance: u32) -> Self {
        AdjustPri { strength, variance }
    }

    /// Variances where the logarithm steps, and the ends.
    pub fn variances() -> Vec<u32> {
        let mut list = vec![0, 1, 63];
        for k in 6..20 {
            list.extend([(1 << k) - 1, 1 << k, (1 << k) + 1]);
        }
        list.extend([VARIANCE_MAX - 1, VARIANCE_MAX]);
        list
    }

    pub fn edges() -> Vec<Self> {
        let mut list = Vec::new();
        for strength in [1, 4, 15, STRENGTH_MAX] {
            list.extend(Self::variances().iter().map(|&v| Self::new(strength, v)));
        }
        for strength in [0, 2, 3, 7, 8, 16, 60, 64] {
            for variance in [1023, 1024, VARIANCE_MAX] {
                list.push(Self::new(strength, variance));
            }
        }
        list
    }

    pub fn refused() -> Vec<Self> {
        let mut list = vec![Self::new(4, VARIANCE_MAX + 1), Self::new(0, u32::MAX)];
        for strength in [STRENGTH_MAX + 1].into_iter().chain(WIDE) {
            list.push(Self::new(strength, 1024));
            list.push(Self::new(strength, VARIANCE_MAX + 1));
        }
        for variance in [1 << 20, 1 << 31, u32::MAX] {
            list.push(Self::new(4, variance));
        }
        list
    }

    pub fn random(r: &mut Random) -> Self {
        let variance = match r.below(2) {
            0 => r.between(0, 860_160) as u32,
            _ => r.of_bits(19) as u32,
        };
        Self::new(r.between(0, 240) as u32, variance)
    }

    pub fn any(r: &mut Random) -> Self {
        let inside = Self::random(r);
        let strength = match r.below(5) {
            0 => r.next() as u32,
            1 => r.pick(&[239, 240, 241, 242]),
            _ => inside.strength,
        };
        let variance = match r.below(5) {
            0 => r.next() as u32,
            1 => r.pick(&[860_159, 860_160, 860_161]),
            _ => inside.variance,
        };
        Self::new(strength, variance)
    }
}

impl Display for AdjustPri {
    fn fmt(&self, f: &mut Formatter) -> Result {
        write!(f, "{} {}", self.strength, self.variance)
    }
}

impl Case for AdjustPri {
    type Value = i64;

    #[inline]
    fn number(&self) -> u32 {
        if self.strength > STRENGTH_MAX || self.variance > VARIANCE_MAX {
            8
        } else {
            0
        }
    }

    #[inline]
    fn result(&self) -> i64 {
        reference::adjust_pri(self.strength, self.variance).into()
    }
}
