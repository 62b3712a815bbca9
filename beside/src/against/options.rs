//! The program's arguments.

use support::frame::Size;
use support::planes::SIDE_MAX;

pub const USAGE: &str = "against BEFORE OURS [--only PART].. [--launches N] [--rounds N]";

/// What is timed on the largest picture too.
pub const GROWN: [&str; 6] = [
    "direction pass",
    "try luma",
    "try chroma",
    "apply (4, 2) luma",
    "apply (4, 2) chroma",
    "measure (0, 0) luma",
];

pub struct Options {
    /// Shared objects.
    pub before: String,
    pub ours: String,
    /// Parts of the names of the calls that are timed; none: all calls.
    only: Vec<String>,
    pub launches: usize,
    /// Of each launch.
    pub rounds: usize,
    /// This is one of the launches.
    pub here: bool,
}

impl Options {
    pub fn new() -> Option<Self> {
        let mut words = std::env::args().skip(1);
        let mut options = Options {
            before: words.next()?,
            ours: words.next()?,
            only: Vec::new(),
            launches: 9,
            rounds: 3,
            here: false,
        };
        let count = |word: Option<String>| word?.parse().ok().filter(|&n: &usize| n > 0);
        while let Some(word) = words.next() {
            match word.as_str() {
                "--only" => options.only.push(words.next()?),
                "--launches" => options.launches = count(words.next())?,
                "--rounds" => options.rounds = count(words.next())?,
                "--here" => options.here = true,
                _ => return None,
            }
        }
        Some(options)
    }

    pub fn wanted(&self, call: &str, size: Size) -> bool {
        let named = self.only.is_empty() || self.only.iter().any(|part| call.contains(part));
        named && (size.width < SIDE_MAX || GROWN.contains(&call))
    }
}
