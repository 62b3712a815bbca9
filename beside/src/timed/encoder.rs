//! What a picture costs an encoder.

use crate::table::Lines;
use crate::timing::Rounds;
use support::frame::Size;

/// What an encoder runs of a picture in 4:2:0, and on how many planes. What was applied
/// is measured with pair 0, 0.
const CALLS: [(&str, f64); 7] = [
    ("direction pass", 1.0),
    ("try luma", 1.0),
    ("try chroma", 2.0),
    ("apply (4, 2) luma", 1.0),
    ("apply (4, 2) chroma", 2.0),
    ("measure (0, 0) luma", 1.0),
    ("measure (0, 0) chroma", 2.0),
];

/// What the sums are of.
pub fn heading(Size { width, height, .. }: Size) -> String {
    format!(
        "An encoder's picture of {width} by {height} in 4:2:0: direction pass, trying, applying (4, 2) \
         and measuring (0, 0), each in luma and both chroma planes; sums of the lines above."
    )
}

/// The milliseconds of one side, by the medians, where all of the calls were timed.
pub fn cost(lines: &Lines, size: Size, side: usize) -> Option<f64> {
    let of = |&(call, planes): &(&str, f64)| Some(planes * lines.line(call, size)?.time(side));
    let sum: Option<f64> = CALLS.iter().map(of).sum();
    Some(sum? * size.blocks() as f64 / 1e6)
}

/// The same sums round by round, in nanoseconds per block.
pub fn rounds(lines: &Lines, size: Size, side: usize) -> Option<Rounds> {
    let mut sums = Vec::new();
    for (call, planes) in CALLS {
        let Rounds(times) = &lines.line(call, size)?.sides[side];
        sums.resize(times.len(), 0.0);
        for (sum, time) in sums.iter_mut().zip(times) {
            *sum += planes * time;
        }
    }
    Some(Rounds(sums))
}
