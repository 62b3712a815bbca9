//! What the programs share: cases of each call with the expected answer, the
//! random generator, and the report.

pub mod adjust_pri;
pub mod block;
pub mod built;
pub mod constrain;
pub mod counts;
pub mod damping;
pub mod direction;
pub mod distance;
pub mod filter;
pub mod frame;
pub mod library;
pub mod log2_floor;
pub mod options;
pub mod planes;
pub mod questions;
pub mod random;
pub mod refusals;
pub mod report;
pub mod spot;
pub mod trial;
pub mod working_damping;

use counts::Amount;
use report::Value;
use std::fmt::Display;

/// The largest strength that adjusting and constraining alone accept.
pub const STRENGTH_MAX: u32 = 240;

/// Numbers that a narrower type would wrap into range, and the last ones.
pub(crate) const WIDE: [u32; 6] = [256, 65_536, 65_540, 1 << 31, u32::MAX - 1, u32::MAX];

/// The error code, 0 for done, and the value. After a rejected call a number is 0,
/// and a list is what it was.
#[derive(Clone, Debug, PartialEq)]
pub struct Answer<V> {
    pub number: u32,
    pub value: V,
}

/// One case of a call. `Display` writes the inputs, separated by single spaces.
pub trait Case: Display {
    type Value: Value + Default;

    /// The error code (RULES, Questions): the number of the first check that fails, or 0.
    fn number(&self) -> u32;

    /// The reference's result, computed only where the error code is 0.
    fn result(&self) -> Self::Value;

    /// What is compared of the answer where the error code is 0.
    #[inline]
    fn amount(&self) -> Amount {
        Amount::samples(1)
    }

    /// The value that is expected after a rejected call.
    #[inline]
    fn left(&self) -> Self::Value {
        Self::Value::default()
    }

    #[inline]
    fn expected(&self) -> Answer<Self::Value> {
        let number = self.number();
        let value = if number == 0 {
            self.result()
        } else {
            self.left()
        };
        Answer { number, value }
    }
}

/// Numbers separated by single spaces.
pub fn joined<T: Display>(numbers: impl IntoIterator<Item = T>) -> String {
    let words: Vec<String> = numbers.into_iter().map(|n| n.to_string()).collect();
    words.join(" ")
}
