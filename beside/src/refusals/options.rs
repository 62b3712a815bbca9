//! The program's arguments.

use crate::case::{CALLS, Call};
use crate::model::asked;

pub const WORDS: &str = "refusals short|long|exact [--seed N] [--only CALL] [--case N] \
     [--calls N] [--rounds N] [--plant model:CALL[:QUESTION] | read:CALL | before:CALL | write:CALL \
     | touch:CALL]";

/// How much is run, and how often at least each thing must occur.
pub struct Measure {
    /// Lists from malloc, exactly as long; else against unreadable pages.
    pub exact: bool,
    /// Cases of each call.
    pub cases: u64,
    /// How often each call with overlong lists is made, of other sizes and contents.
    pub rounds: usize,
    pub calls: u64,
    pub taken: u64,
    pub each_question: u64,
}

/// What is made wrong.
#[derive(Clone, Copy, PartialEq)]
pub enum Plant {
    /// In every third case the model lets this question pass although it fails.
    Model(u32),
    /// An accepted call is given one element past the end of a list, or before its start.
    Read,
    Before,
    /// After every third call one element that it may not alter is altered.
    Write,
    /// After each call with overlong lists one page is touched that may not be.
    Touch,
}

pub struct Options {
    pub measure: Measure,
    pub seed: u64,
    pub only: Option<Call>,
    pub case: Option<u64>,
    pub plant: Option<(Plant, Call)>,
}

fn measure(word: &str) -> Option<Measure> {
    let (exact, cases, rounds, scale) = match word {
        "long" => (false, 6_300_000, 20, 100_000),
        "short" => (false, 63_000, 2, 1_000),
        "exact" => (true, 1_250, 2, 20),
        _ => return None,
    };
    Some(Measure {
        exact,
        cases,
        rounds,
        calls: 1_000 * scale,
        taken: 10 * scale,
        each_question: scale,
    })
}

fn call(name: &str) -> Option<Call> {
    CALLS
        .iter()
        .find(|(_, n)| *n == name)
        .map(|(call, _)| *call)
}

/// The question is the call's last unless it is named.
fn plant(word: &str) -> Option<(Plant, Call)> {
    let mut parts = word.split(':');
    let (kind, call) = (parts.next()?, call(parts.next()?)?);
    let questions = asked(call);
    let question = match parts.next() {
        Some(part) if kind == "model" => part.parse().ok(),
        Some(_) => None,
        None => questions.last().copied(),
    };
    let question = question.filter(|q| questions.contains(q))?;
    let plant = match kind {
        "model" => Plant::Model(question),
        "read" => Plant::Read,
        "before" => Plant::Before,
        "write" => Plant::Write,
        "touch" if call.slices().next().is_some() => Plant::Touch,
        _ => return None,
    };
    Some((plant, call))
}

pub fn options() -> Option<Options> {
    let mut words = std::env::args().skip(1);
    let mut options = Options {
        measure: measure(&words.next()?)?,
        seed: 20_261_116,
        only: None,
        case: None,
        plant: None,
    };
    while let Some(word) = words.next() {
        let value = words.next()?;
        match word.as_str() {
            "--seed" => options.seed = value.parse().ok()?,
            "--only" => options.only = Some(call(&value)?),
            "--case" => options.case = Some(value.parse().ok()?),
            "--calls" => options.measure.cases = value.parse().ok()?,
            "--rounds" => options.measure.rounds = value.parse().ok()?,
            "--plant" => options.plant = Some(plant(&value)?),
            _ => return None,
        }
    }
    Some(options)
}
