//! Times two libraries and the scalar Rust reference in turn, in several launches of this program:
//! against BEFORE OURS [--only PART].. [--launches N] [--rounds N]
//! BEFORE and OURS are shared objects (`adapter/lib.rs`). Prints tables. Exit status: 0 printed,
//! 1 an answer is different, 2 not measured.

mod launch;
mod loaded;
mod options;
mod tables;

use options::{Options, USAGE};
use std::process::ExitCode;

/// Whether every answer was the reference's.
fn run(options: &Options) -> Result<bool, String> {
    if options.here {
        return launch::here(options);
    }
    let launched = launch::several(options)?;
    if launched.lines.all().is_empty() {
        return Err("no call's name has what --only names".to_string());
    }
    tables::print(options, &launched.lines);
    if launched.different.is_empty() {
        return Ok(true);
    }
    println!();
    launched
        .different
        .iter()
        .for_each(|line| println!("{line}"));
    println!("An answer is different; the times mean nothing.");
    Ok(false)
}

fn main() -> ExitCode {
    let ended = match Options::new() {
        Some(options) => run(&options),
        None => Err(USAGE.to_string()),
    };
    match ended {
        Ok(true) => ExitCode::SUCCESS,
        Ok(false) => ExitCode::FAILURE,
        Err(why) => {
            eprintln!("against: {why}");
            ExitCode::from(2)
        }
    }
}
