//! Random and damaged calls of every C entry that can reject a call: each error code is compared
//! with a model of RULES, Questions, and every list with what it was; and calls with overlong
//! lists, which touch no list before it is to be examined. `quern_log2_floor` and `quern_root`
//! reject nothing and are left out.

mod case;
mod draw;
#[allow(dead_code)] // Two entries reject nothing.
#[path = "../ours/entries.rs"]
mod entries;
mod entry;
mod faults;
#[path = "../ours/frame/entries.rs"]
mod frame_entries;
mod lent;
mod model;
mod options;
mod overlong;
mod pages;
#[allow(dead_code)] // The generator's pictures are not drawn here.
#[path = "../support/random.rs"]
mod random;
mod run;
mod stopped;
mod table;

use case::{CALLS, Call, Case};
use lent::Source;
use options::Options;
use random::Random;
use std::process::ExitCode;
use std::time::Instant;
use table::Counts;

/// One case of a call in every so many has a plane of 4,096 by 4,096.
const LARGEST_EVERY: u64 = 1 << 21;
const LARGEST_FIRST: u64 = 1_000;

fn main() -> ExitCode {
    let Some(options) = options::options() else {
        eprintln!("{}", options::WORDS);
        return ExitCode::from(2);
    };
    println!("refusals, seed {}", options.seed);
    std::panic::set_hook(Box::new(|why| {
        eprintln!("{why}");
        std::process::exit(2)
    }));
    stopped::watch(options.seed);
    let mut case = Case::new(match options.measure.exact {
        true => || Source::Exact,
        false => Source::guarded,
    });
    table::print_head();
    let mut counts = Vec::new();
    for (call, _) in CALLS {
        if options.only.is_none_or(|only| only == call) {
            let of_call = run_call(&mut case, call, &options);
            of_call.print();
            counts.push(of_call);
        }
    }
    let mut all_same = true;
    if options.case.is_none() {
        let overlong = overlong::run_calls(&mut case, &options);
        all_same = table::print_overlong(&overlong, &options);
    }
    all_same &= table::print_end(&counts, &options);
    ExitCode::from(u8::from(!all_same))
}

fn run_call(c: &mut Case, call: Call, options: &Options) -> Counts {
    let mut counts = Counts::new(call);
    let start = Instant::now();
    let cases = match options.case {
        Some(case) => case..case + 1,
        None => 0..options.measure.cases,
    };
    let seed = Random::new(options.seed).next() ^ (call as u64) << 48;
    for number in cases {
        let mut r = Random::new(Random::new(seed ^ number).next());
        let largest = number % LARGEST_EVERY == LARGEST_FIRST && !options.measure.exact;
        faults::case(c, call, largest, &mut r);
        if options.case.is_some() {
            println!("{c:?}");
        }
        run::run(c, number, r.next(), options, &mut counts);
    }
    counts.seconds = start.elapsed().as_secs_f64();
    counts
}
