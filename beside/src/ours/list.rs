//! Lists passed with guard elements on both sides.

use crate::BESIDE;
use support::Answer;

/// A list between guards that hold one number before the call.
pub struct List<T> {
    places: Vec<T>,
    spare: usize,
    held: T,
}

impl<T: Copy + PartialEq> List<T> {
    pub fn new(before: &[T], spare: usize, held: T) -> Self {
        let beside = vec![held; spare];
        let places = [&beside, before, &beside].concat();
        List {
            places,
            spare,
            held,
        }
    }

    /// What is passed to the call.
    pub fn lent(&mut self) -> &mut [T] {
        let end = self.places.len() - self.spare;
        &mut self.places[self.spare..end]
    }

    pub fn is_alone(&self) -> bool {
        let end = self.places.len() - self.spare;
        let mut beside = self.places[..self.spare].iter().chain(&self.places[end..]);
        beside.all(|v| *v == self.held)
    }

    pub fn after(mut self) -> Vec<T> {
        self.lent().to_vec()
    }

    /// The error code and the whole list.
    pub fn answer(self, number: u32) -> Answer<Vec<T>> {
        Answer {
            number: if self.is_alone() { number } else { BESIDE },
            value: self.after(),
        }
    }
}
