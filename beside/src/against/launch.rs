//! One launch of the program, whose lines are printed as text for the launch that began it.
//! Code, stack and lists lie at other addresses in each launch, by which the same code takes some
//! percent more or less time; the rounds of several launches show how much.

use crate::loaded;
use crate::options::Options;
use std::process::{Command, Stdio};
use support::frame::Size;
use support::joined;
use timed::scene::{DEPTHS, Scene};
use timed::table::{Line, Lines, Plan, Table};
use timed::timing::Rounds;

/// What separates the parts of a line of text.
const BETWEEN: char = '\t';

fn print(line: &Line) {
    let (call, blocks) = (&line.call, line.blocks);
    let Size {
        width,
        height,
        depth,
    } = line.size;
    let mut parts = vec![call.clone(), joined([width, height, depth.into(), blocks])];
    parts.extend(line.sides.iter().map(|rounds| joined(&rounds.0)));
    println!("{}", parts.join(&BETWEEN.to_string()));
}

fn numbers<T: std::str::FromStr>(text: &str) -> Option<Vec<T>> {
    text.split(' ').map(|word| word.parse().ok()).collect()
}

/// The line that was printed.
fn parsed(text: &str) -> Option<Line> {
    let mut parts = text.split(BETWEEN);
    let call = parts.next()?.to_string();
    let [width, height, depth, blocks] = numbers(parts.next()?)?.try_into().ok()?;
    let size = Size {
        width,
        height,
        depth: depth.try_into().ok()?,
    };
    let sides = parts.map(|part| numbers(part).map(Rounds));
    Some(Line {
        call,
        size,
        blocks,
        sides: sides.collect::<Option<_>>()?,
    })
}

/// Times the calls and prints their lines, and a line for each answer that is different.
pub fn here(options: &Options) -> Result<bool, String> {
    let before = loaded::library(&options.before)?;
    let ours = loaded::library(&options.ours)?;
    let libraries = [("before", before), ("ours", ours)];
    let wanted = |call: &str, size| options.wanted(call, size);
    let table = &mut Table::new(Plan {
        libraries: &libraries,
        rounds: options.rounds,
        few_rounds: 1,
        wanted: &wanted,
        print,
    });
    timed::lines(table, &DEPTHS.map(Scene::new));
    Ok(table.same)
}

/// The lines of several launches.
#[derive(Default)]
pub struct Launched {
    pub lines: Lines,
    /// What was printed of answers that are different.
    pub different: Vec<String>,
}

pub fn several(options: &Options) -> Result<Launched, String> {
    let program = std::env::current_exe().map_err(|e| e.to_string())?;
    let mut launched = Launched::default();
    for _ in 0..options.launches {
        let mut child = Command::new(&program);
        child.args(std::env::args().skip(1)).arg("--here");
        let ended = child.stderr(Stdio::inherit()).output();
        let ended = ended.map_err(|e| e.to_string())?;
        if !matches!(ended.status.code(), Some(0 | 1)) {
            return Err(format!("a launch ended with {}", ended.status));
        }
        for text in String::from_utf8_lossy(&ended.stdout).lines() {
            if !text.starts_with("DIFFERENT ") {
                let line = parsed(text).ok_or(format!("a launch printed {text}"))?;
                launched.lines.add(line);
            } else if !launched.different.iter().any(|l| l == text) {
                launched.different.push(text.to_string());
            }
        }
    }
    Ok(launched)
}
