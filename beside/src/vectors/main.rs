//! Writes the stored sample of the reference's answers: vectors FOLDER. One file per
//! call, one case per line: the inputs, the error code, the answer.

mod chosen;

use std::process::ExitCode;
use support::adjust_pri::AdjustPri;
use support::constrain::Constrain;
use support::damping::{Damping, INDEX_MAX};
use support::direction::Direction;
use support::distance::Distance;
use support::filter::Filter;
use support::log2_floor::Log2Floor;
use support::random::Random;
use support::trial::Trial;
use support::{Answer, Case, joined};

/// Cases of a call, with random ones up to this count.
const CASES: usize = 320;

const SEED: u64 = 7_522;

struct Sample {
    folder: String,
}

impl Sample {
    fn write<C: Case>(
        &self,
        call: &str,
        cases: &[C],
        line: impl Fn(&C, Answer<C::Value>) -> String,
    ) -> std::io::Result<()> {
        let mut text = String::new();
        for case in cases {
            text += &line(case, case.expected());
            text += "\n";
        }
        println!("{call}: {} cases", cases.len());
        std::fs::write(format!("{}/{call}.txt", self.folder), text)
    }
}

/// The line of a call that returns one number.
fn one_number<C: Case<Value = i64>>(case: &C, answer: Answer<i64>) -> String {
    format!("{case} {} {}", answer.number, answer.value)
}

/// The samples follow the answer.
fn direction(case: &Direction, answer: Answer<[i64; 2]>) -> String {
    let [direction, variance] = answer.value;
    let numbers = format!(
        "{} {} {direction} {variance}",
        case.0.numbers(),
        answer.number
    );
    line([numbers, joined(case.0.plane.iter())])
}

/// The plane, the destination before and the destination after.
fn filter(case: &Filter, answer: Answer<Vec<u16>>) -> String {
    let numbers = format!("{} {}", case.numbers(), answer.number);
    let (plane, before) = (
        joined(case.block.spot.plane.iter()),
        joined(case.dst.iter()),
    );
    line([numbers, plane, before, joined(answer.value)])
}

/// The plane, and where it is done the twelve trial blocks; what is past a block's
/// width × height elements holds what it held.
fn trial(case: &Trial, answer: Answer<Vec<u16>>) -> String {
    let b = &case.block;
    let numbers = format!("{} {}", case.numbers(), answer.number);
    let done = answer.number == 0;
    let count = if done { b.width * b.height } else { 0 };
    let after = answer
        .value
        .chunks(64)
        .flat_map(|block| block.iter().take(count));
    line([numbers, joined(b.spot.plane.iter()), joined(after)])
}

/// The original and the other plane follow the answer.
fn distance(case: &Distance, answer: Answer<i64>) -> String {
    let [original, other] = case.planes().map(joined);
    let Answer { number, value } = answer;
    let numbers = format!("{} {number} {value}", case.spot.numbers());
    line([numbers, original, other])
}

/// Lists separated by a space; an empty one leaves none.
fn line<const N: usize>(lists: [String; N]) -> String {
    joined(lists.into_iter().filter(|l| !l.is_empty()))
}

/// The list, filled up with random cases.
fn filled<C>(mut list: Vec<C>, r: &mut Random, random: impl Fn(&mut Random) -> C) -> Vec<C> {
    while list.len() < CASES {
        list.push(random(r));
    }
    list
}

fn write_all(folder: String) -> std::io::Result<()> {
    let sample = Sample { folder };
    let mut r = Random::new(SEED);
    let fixed = [Constrain::edges(), Constrain::refused()].concat();
    let cases = filled(fixed, &mut r, Constrain::random);
    sample.write("constrain", &cases, one_number)?;
    let fixed = [AdjustPri::edges(), AdjustPri::refused()].concat();
    let cases = filled(fixed, &mut r, AdjustPri::random);
    sample.write("adjust_pri", &cases, one_number)?;
    let all = (0..=INDEX_MAX).map(Damping);
    let cases: Vec<Damping> = all.chain(Damping::refused()).collect();
    sample.write("damping", &cases, one_number)?;
    let cases = filled(Log2Floor::edges(), &mut r, Log2Floor::random);
    sample.write("log2_floor", &cases, one_number)?;
    let fixed = [Direction::edges(), chosen::directions()].concat();
    let cases = filled(fixed, &mut r, Direction::random);
    sample.write("direction", &cases, direction)?;
    let fixed = [Filter::edges(), chosen::filters()].concat();
    let cases = filled(fixed, &mut r, Filter::random);
    sample.write("filter", &cases, filter)?;
    let fixed = [Trial::edges(), chosen::trials()].concat();
    let cases = filled(fixed, &mut r, Trial::random);
    sample.write("trial", &cases, trial)?;
    for (weighted, call) in [(true, "distance"), (false, "squares")] {
        let fixed = [Distance::edges(weighted), chosen::distances(weighted)].concat();
        let cases = filled(fixed, &mut r, |r| Distance::random(weighted, r));
        sample.write(call, &cases, distance)?;
    }
    Ok(())
}

fn main() -> ExitCode {
    let Some(folder) = std::env::args().nth(1) else {
        eprintln!("vectors FOLDER");
        return ExitCode::from(2);
    };
    println!("vectors, seed {SEED}");
    match write_all(folder) {
        Ok(()) => ExitCode::SUCCESS,
        Err(error) => {
            eprintln!("vectors: {error}");
            ExitCode::from(2)
        }
    }
}
