//! The one table: a line per call, size of picture and bit depth.

use crate::timing::{Pass, Rounds, in_turn};
use std::hint::black_box;
use support::frame::Size;
use support::library::Library;
use support::planes::SIDE_MAX;

/// How a table is made.
pub struct Plan<'a> {
    /// The libraries that are timed with the reference, and their names.
    pub libraries: &'a [(&'a str, &'a dyn Library)],
    pub rounds: usize,
    /// Rounds on the largest picture.
    pub few_rounds: usize,
    pub wanted: &'a dyn Fn(&str, Size) -> bool,
    pub print: fn(&Line),
}

pub struct Table<'a> {
    pub(crate) plan: Plan<'a>,
    pub lines: Lines,
    /// Whether every answer was the reference's.
    pub same: bool,
}

pub struct Line {
    pub call: String,
    pub size: Size,
    pub blocks: usize,
    /// The reference, then the libraries.
    pub sides: Vec<Rounds>,
}

impl Line {
    /// The median of a side, in nanoseconds per block.
    pub fn time(&self, side: usize) -> f64 {
        self.sides[side].median().value
    }

    /// The first cells of the line.
    pub fn name(&self) -> String {
        let Size {
            width,
            height,
            depth,
        } = self.size;
        let (call, blocks) = (&self.call, self.blocks);
        format!("{call} | {width} by {height} | {depth} | {blocks}")
    }

    /// The times of the sides, as cells, and their spreads, as one.
    pub fn times(&self) -> (String, String) {
        let medians = || self.sides.iter().map(Rounds::median);
        let times: Vec<_> = medians().map(|m| format!("{:.1}", m.value)).collect();
        let spreads: Vec<_> = medians().map(|m| format!("{:.1} %", m.spread)).collect();
        (times.join(" | "), spreads.join(", "))
    }
}

/// One line for each call and size.
#[derive(Default)]
pub struct Lines(Vec<Line>);

impl Lines {
    /// Adds a line, or its rounds to those of the line that is there.
    pub fn add(&mut self, line: Line) {
        let same = |l: &&mut Line| l.call == line.call && l.size == line.size;
        match self.0.iter_mut().find(same) {
            None => self.0.push(line),
            Some(there) => {
                for (side, more) in there.sides.iter_mut().zip(line.sides) {
                    side.0.extend(more.0);
                }
            }
        }
    }

    pub fn line(&self, call: &str, size: Size) -> Option<&Line> {
        self.0.iter().find(|l| l.call == call && l.size == size)
    }

    pub fn all(&self) -> &[Line] {
        &self.0
    }
}

impl<'a> Table<'a> {
    pub fn new(plan: Plan<'a>) -> Self {
        Table {
            plan,
            lines: Lines::default(),
            same: true,
        }
    }

    /// Times passes over the same blocks, the reference's first, and prints their line.
    pub fn time(&mut self, call: &str, size: Size, blocks: usize, passes: Vec<Pass>) {
        let rounds = if size.width == SIDE_MAX {
            self.plan.few_rounds
        } else {
            self.plan.rounds
        };
        let line = Line {
            call: call.to_string(),
            size,
            blocks,
            sides: in_turn(rounds, blocks, passes),
        };
        (self.plan.print)(&line);
        self.lines.add(line);
    }

    /// Times the reference and each library, which write to slices of their own. Returned are
    /// the libraries' slices, with the error codes, or'ed.
    pub(crate) fn written<T: Clone, S>(
        &mut self,
        (call, size, blocks): (&str, Size, usize),
        (before, rust_out): (T, &mut S),
        ours: impl Fn(&dyn Library, &mut T) -> u32,
        rust: impl Fn(&mut S),
    ) -> Vec<(u32, T)> {
        let libraries = self.plan.libraries;
        let mut outs = vec![(0, before); libraries.len()];
        let mut passes: Vec<Pass> = vec![Box::new(|| {
            rust(black_box(rust_out));
            black_box(&mut *rust_out);
        })];
        let ours = &ours;
        for (&(_, library), (refused, out)) in libraries.iter().zip(&mut outs) {
            passes.push(Box::new(move || {
                *refused |= ours(library, black_box(out));
                black_box(&mut *out);
            }));
        }
        self.time(call, size, blocks, passes);
        outs
    }

    /// Records whether a library's answers to a call were the reference's.
    pub fn answers(&mut self, call: &str, size: Size, library: usize, same: bool) {
        if !same {
            println!(
                "DIFFERENT {call}, {size}: {}",
                self.plan.libraries[library].0
            );
        }
        self.same &= same;
    }
}
