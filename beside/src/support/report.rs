//! Differences, counts and the planted wrong answer.

use crate::counts::{Amount, Counts, Floors, processor_time};
use crate::{Answer, Case};
use std::fmt::{Debug, Display};
use std::ops::BitXorAssign;

/// How many differences of a call are printed.
const SHOWN: u64 = 5;

/// Something compared, that can be made wrong by one.
pub trait Value: PartialEq + Debug {
    fn spoil(&mut self);

    /// What was got, and what was expected instead.
    fn apart(&self, expected: &Self) -> String {
        format!("got {self:?}, expected {expected:?}")
    }
}

impl Value for i64 {
    fn spoil(&mut self) {
        *self += 1;
    }
}

/// The last element is made wrong.
impl Value for [i64; 2] {
    fn spoil(&mut self) {
        self[1] += 1;
    }
}

/// The last element is made wrong, or one is added where there is none.
impl<T: Copy + PartialEq + Debug + BitXorAssign + From<u8>> Value for Vec<T> {
    fn spoil(&mut self) {
        match self.last_mut() {
            Some(last) => *last ^= 1.into(),
            None => self.push(0.into()),
        }
    }

    /// The first different element alone, since such a list can be long.
    fn apart(&self, expected: &Self) -> String {
        let (got, due) = (self.len(), expected.len());
        let mut places = self.iter().zip(expected).enumerate();
        let count = places.clone().filter(|(_, (a, b))| a != b).count();
        match places.find(|(_, (a, b))| a != b) {
            Some((k, (a, b))) => {
                format!("{count} of {got} elements, at {k} got {a:?}, expected {b:?}")
            }
            None => format!("got {got} elements, expected {due}"),
        }
    }
}

/// Two lists that a call leaves; the first is made wrong.
impl<V: Value, W: Value> Value for (V, W) {
    fn spoil(&mut self) {
        self.0.spoil();
    }

    fn apart(&self, expected: &Self) -> String {
        if self.0 == expected.0 {
            format!("in the second list {}", self.1.apart(&expected.1))
        } else {
            self.0.apart(&expected.0)
        }
    }
}

impl<V: Value> Value for Answer<V> {
    fn spoil(&mut self) {
        self.value.spoil();
    }

    fn apart(&self, expected: &Self) -> String {
        if self.number == expected.number {
            self.value.apart(&expected.value)
        } else {
            format!(
                "got error code {}, expected {}",
                self.number, expected.number
            )
        }
    }
}

/// A wrong answer to plant: the call, and which of its cases.
pub struct Plant {
    pub call: String,
    pub case: u64,
}

impl Plant {
    /// From CALL:CASE.
    pub fn parse(word: &str) -> Option<Self> {
        let (call, case) = word.split_once(':')?;
        Some(Plant {
            call: call.to_string(),
            case: case.parse().ok()?,
        })
    }
}

pub struct Report {
    plant: Option<Plant>,
    only: Option<String>,
    ran: bool,
    counts: Counts,
}

/// The running count of one call.
pub struct Tally {
    call: &'static str,
    plant: u64,
    planted: bool,
    counts: Counts,
}

impl Report {
    /// Prints the head of the table.
    pub fn new(plant: Option<Plant>, only: Option<String>) -> Self {
        Counts::print_head();
        Report {
            plant,
            only,
            ran: false,
            counts: Counts::default(),
        }
    }

    /// Runs one call's cases and prints its row, unless another one alone is wanted.
    pub fn call(&mut self, call: &'static str, cases: impl FnOnce(&mut Tally)) {
        if self.only.as_ref().is_some_and(|only| only != call) {
            return;
        }
        self.ran = true;
        let plant = self.plant.as_ref().filter(|p| p.call == call);
        let mut tally = Tally {
            call,
            plant: plant.map_or(u64::MAX, |p| p.case),
            planted: false,
            counts: Counts::default(),
        };
        let start = processor_time();
        cases(&mut tally);
        tally.counts.seconds = processor_time() - start;
        tally.counts.print(call);
        self.counts += tally.counts;
        if tally.planted {
            self.plant = None;
        }
    }

    /// The exit status: 0 all the same, 1 a difference or fewer samples than wanted, 2 no
    /// call was run, or no case was there to plant in.
    pub fn finish(self, floors: Floors) -> u8 {
        if !self.ran {
            println!("no call of that name");
            return 2;
        }
        if let Some(p) = self.plant {
            println!("no case {} of {} to plant in", p.case, p.call);
            return 2;
        }
        let enough = self.counts.print_end(floors);
        let different = self.counts.different;
        println!("{different} different in all");
        u8::from(different != 0 || !enough)
    }
}

impl Tally {
    /// Compares our answer to a case with the expected one.
    #[inline]
    pub fn case<C: Case>(&mut self, case: &C, ours: Answer<C::Value>) {
        self.against(case, ours, case.expected());
    }

    /// The same, where the expected answer is at hand.
    #[inline]
    pub fn against<C: Case>(&mut self, case: &C, ours: Answer<C::Value>, due: Answer<C::Value>) {
        if due.number == 0 {
            self.counts += case.amount();
        } else {
            self.counts.refusals += 1;
        }
        self.same(case, ours, due);
    }

    /// Counts what is compared with something other than the expected answer to a case, and
    /// what differs by the direction map.
    pub fn count(&mut self, amount: Amount) {
        self.counts += amount;
    }

    /// Compares what was got with what is expected.
    #[inline]
    pub fn same<V: Value>(&mut self, inputs: &dyn Display, got: V, expected: V) {
        let mut got = got;
        if self.counts.cases == self.plant {
            got.spoil();
            self.planted = true;
        }
        if got != expected {
            self.differs(inputs, || got.apart(&expected));
        }
        self.counts.cases += 1;
    }

    /// The same of two numbers.
    pub fn number(&mut self, inputs: &str, got: impl Into<i64>, expected: impl Into<i64>) {
        self.same(&inputs, got.into(), expected.into());
    }

    #[cold]
    fn differs(&mut self, inputs: &dyn Display, apart: impl FnOnce() -> String) {
        if self.counts.different < SHOWN {
            let (call, case) = (self.call, self.counts.cases);
            println!("DIFFERENT {call}:{case} ({inputs}): {}", apart());
        }
        self.counts.different += 1;
    }
}
