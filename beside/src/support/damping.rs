//! Cases of damping from a quality index.

use crate::{Case, WIDE};
use std::fmt::{Display, Formatter, Result};

pub const INDEX_MAX: u32 = 255;

#[derive(Clone, Copy)]
pub struct Damping(pub u32);

impl Damping {
    pub fn refused() -> Vec<Self> {
        let near = [256, 257, 319, 320, 447, 448, 511, 512];
        near.into_iter().chain(WIDE).map(Damping).collect()
    }
}

impl Display for Damping {
    fn fmt(&self, f: &mut Formatter) -> Result {
        write!(f, "{}", self.0)
    }
}

impl Case for Damping {
    type Value = i64;

    fn number(&self) -> u32 {
        if self.0 > INDEX_MAX { 8 } else { 0 }
    }

    fn result(&self) -> i64 {
        reference::cdef_damping(self.0 as u8).into()
    }
}
