//! The standard's chroma direction map against the reference's own: the same in every layout
//! but 4:4:0.

use crate::agreement::LAYOUTS;
use support::frame::map;
use support::report::Tally;

/// In 4:4:0, by luma's direction.
const STANDARD: [u8; 8] = [1, 2, 2, 2, 3, 4, 6, 0];
const OWN: [u8; 8] = [0, 1, 2, 3, 4, 5, 6, 7];

pub fn check(tally: &mut Tally) {
    for (sx, sy) in LAYOUTS {
        let standard = map::standard(sx, sy);
        let own = reference::chroma_direction_map(sx, sy);
        if (sx, sy) == (0, 1) {
            each(tally, "4:4:0, the standard's", standard, STANDARD);
            each(tally, "4:4:0, the reference's", own, OWN);
        } else {
            each(tally, &format!("layout {sx} {sy}"), standard, own);
        }
    }
}

fn each(tally: &mut Tally, name: &str, got: [u8; 8], expected: [u8; 8]) {
    for (direction, (got, expected)) in got.into_iter().zip(expected).enumerate() {
        tally.number(&format!("{name}, direction {direction}"), got, expected);
    }
}
