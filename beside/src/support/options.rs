//! The arguments of the comparing programs: short|long [--seed N] [--only CALL]
//! [--plant CALL:CASE] [--floor SAMPLES] [--map-floor SAMPLES] [--own-map] [--unstated N]
//! `--own-map` gives the reference its own chroma direction map; the self-test, which runs
//! both maps, is the same with it. `--unstated N` takes N, and not 3, for the figure in force
//! where a call is given no damping; the self-test runs no such call.

use crate::counts::Floors;
use crate::frame::{map, unstated};
use crate::report::{Plant, Report};
use std::process::ExitCode;

/// The call whose samples are counted where they differ by the map.
const BY_MAP: &str = "apply_chroma";

const USAGE: &str = "short|long [--seed N] [--only CALL] [--plant CALL:CASE] [--floor SAMPLES] [--map-floor SAMPLES] [--own-map] [--unstated N]";

struct Options {
    long: bool,
    seed: u64,
    only: Option<String>,
    plant: Option<Plant>,
    floor: Option<u64>,
    map_floor: Option<u64>,
    own_map: bool,
    unstated: Option<u8>,
}

impl Options {
    /// Those given; else those of a long run of all calls, and of `BY_MAP` alone the map's.
    fn floors(&self, long: Floors) -> Floors {
        let of_run = |all: bool, floor: u64| if self.long && all { floor } else { 0 };
        let only = self.only.as_deref();
        let samples = of_run(only.is_none(), long.samples);
        let by_map = of_run(only.is_none_or(|call| call == BY_MAP), long.by_map);
        Floors {
            samples: self.floor.unwrap_or(samples),
            by_map: self.map_floor.unwrap_or(by_map),
        }
    }
}

fn options() -> Option<Options> {
    let mut words = std::env::args().skip(1);
    let long = match words.next()?.as_str() {
        "short" => false,
        "long" => true,
        _ => return None,
    };
    let mut options = Options {
        long,
        seed: 20_261_115,
        only: None,
        plant: None,
        floor: None,
        map_floor: None,
        own_map: false,
        unstated: None,
    };
    while let Some(word) = words.next() {
        if word == "--own-map" {
            options.own_map = true;
            continue;
        }
        let value = words.next()?;
        match word.as_str() {
            "--seed" => options.seed = value.parse().ok()?,
            "--only" => options.only = Some(value),
            "--plant" => options.plant = Some(Plant::parse(&value)?),
            "--floor" => options.floor = Some(value.parse().ok()?),
            "--map-floor" => options.map_floor = Some(value.parse().ok()?),
            "--unstated" => options.unstated = Some(figure(&value)?),
            _ => return None,
        }
    }
    Some(options)
}

/// A signalled damping.
fn figure(word: &str) -> Option<u8> {
    word.parse().ok().filter(|figure| (3..=6).contains(figure))
}

/// Prints the seed, runs the comparison and gives the exit status. A long run of all
/// calls compares at least as much as `long_floors`; one of applying in chroma alone has its
/// floor too.
pub fn run(
    name: &str,
    long_floors: Floors,
    compare: impl FnOnce(&mut Report, bool, u64),
) -> ExitCode {
    let Some(options) = options() else {
        eprintln!("{name} {USAGE}");
        return ExitCode::from(2);
    };
    let floors = options.floors(long_floors);
    if options.own_map {
        map::use_own();
    }
    if let Some(figure) = options.unstated {
        unstated::use_figure(figure);
    }
    println!("{name}, seed {}", options.seed);
    let mut report = Report::new(options.plant, options.only);
    compare(&mut report, options.long, options.seed);
    ExitCode::from(report.finish(floors))
}
