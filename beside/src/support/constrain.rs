//! Cases of constrain.

use crate::random::Random;
use crate::{Case, STRENGTH_MAX, WIDE};
use std::fmt::{Display, Formatter, Result};

pub const DAMPING_MAX: u8 = 31;
pub const DIFFERENCE_MAX: i32 = 4095;

#[derive(Clone, Copy)]
pub struct Constrain {
    pub difference: i32,
    pub strength: u32,
    pub damping: u8,
}

impl Constrain {
    pub fn new(difference: i32, strength: u32, damping: u8) -> Self {
        Constrain {
            difference,
            strength,
            damping,
        }
    }

    /// The ends of each range, and differences around which the result becomes 0.
    pub fn edges() -> Vec<Self> {
        let mut list = vec![Self::new(3, 4, 3), Self::new(-5, 4, 3)];
        for strength in [0, 1, 4, STRENGTH_MAX] {
            for damping in [0, 3, DAMPING_MAX] {
                for difference in [0, 1, -1, 7, -8, DIFFERENCE_MAX, -DIFFERENCE_MAX] {
                    list.push(Self::new(difference, strength, damping));
                }
            }
        }
        for strength in [1u32, 2, 3, 4, 7, 15, 60, STRENGTH_MAX] {
            for damping in [0u8, 1, 3, 6, 9, 12] {
                let shift = u32::from(damping).saturating_sub(reference::log2_floor(strength));
                let turn = (strength << shift) as i32;
                for difference in [turn - 1, turn, -turn] {
                    if difference.abs() <= DIFFERENCE_MAX {
                        list.push(Self::new(difference, strength, damping));
                    }
                }
            }
        }
        list
    }

    /// Each failing check at its nearest and farthest, alone and before a later failing one.
    pub fn refused() -> Vec<Self> {
        let mut list = Vec::new();
        for strength in [STRENGTH_MAX + 1].into_iter().chain(WIDE) {
            list.push(Self::new(0, strength, 3));
        }
        for damping in [DAMPING_MAX + 1, 33, 128, 255] {
            list.push(Self::new(5, 4, damping));
        }
        let far = [4096, -4096, 65_536, -65_536, i32::MIN, i32::MAX];
        for difference in far {
            list.push(Self::new(difference, 4, 3));
        }
        for difference in far {
            list.push(Self::new(difference, STRENGTH_MAX + 1, 3));
            list.push(Self::new(difference, 4, DAMPING_MAX + 1));
        }
        list.push(Self::new(4096, 0, 0));
        list.push(Self::new(0, 0, 32));
        list.push(Self::new(i32::MIN, u32::MAX, 255));
        list
    }

    pub fn random(r: &mut Random) -> Self {
        Self::new(
            r.between(-4095, 4095) as i32,
            r.between(0, 240) as u32,
            r.between(0, 31) as u8,
        )
    }

    /// In or out of range, near the ends and anywhere.
    pub fn any(r: &mut Random) -> Self {
        let inside = Self::random(r);
        let difference = match r.below(4) {
            0 => r.next() as i32,
            1 => r.pick(&[-4097, -4096, -4095, 4095, 4096, 4097]),
            _ => inside.difference,
        };
        let strength = match r.below(6) {
            0 => r.next() as u32,
            1 => r.pick(&[239, 240, 241, 242]),
            _ => inside.strength,
        };
        let damping = match r.below(6) {
            0 => r.next() as u8,
            1 => r.pick(&[30, 31, 32, 33]),
            _ => inside.damping,
        };
        Self::new(difference, strength, damping)
    }
}

impl Display for Constrain {
    fn fmt(&self, f: &mut Formatter) -> Result {
        write!(f, "{} {} {}", self.difference, self.strength, self.damping)
    }
}

impl Case for Constrain {
    type Value = i64;

    #[inline]
    fn number(&self) -> u32 {
        if self.strength > STRENGTH_MAX || self.damping > DAMPING_MAX {
            8
        } else if !(-DIFFERENCE_MAX..=DIFFERENCE_MAX).contains(&self.difference) {
            9
        } else {
            0
        }
    }

    #[inline]
    fn result(&self) -> i64 {
        reference::constrain_spec(self.difference, self.strength, self.damping).into()
    }
}
