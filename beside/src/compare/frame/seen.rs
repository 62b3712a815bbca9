//! Which pictures occurred among the cases.

use crate::seen::Seen;
use support::frame::Size;
use support::frame::drawn::{PAIRS, pair};
use support::frame::stated::FrameCase;
use support::planes::SIDE_MAX;
use support::report::Tally;

/// Along each side a block is at an edge, next to such a one, or away from both edges.
const PLACES: usize = 5 * 5;

/// In a picture of five blocks or more each way.
fn place(size: &Size, block: usize) -> usize {
    let along = |n: usize, count: usize| match (n, count - 1 - n) {
        (0 | 1, _) => n,
        (_, left @ (0 | 1)) => 4 - left,
        _ => 2,
    };
    let (columns, rows) = (size.width / 8, size.height / 8);
    5 * along(block / columns, rows) + along(block % columns, columns)
}

pub struct PictureSeen {
    depths: Seen,
    pairs: Seen,
    dampings: Seen,
    sides: Seen,
    places: Seen,
    /// Pairs and dampings, of the calls that take them.
    taken: [bool; 2],
    pictures: usize,
    cut: usize,
}

impl PictureSeen {
    /// Of so many planes per picture.
    pub fn new(kinds: usize) -> Self {
        PictureSeen {
            depths: Seen::new("depths of each layout", 5 * kinds),
            pairs: Seen::new("pairs at each depth of each layout", 5 * kinds * PAIRS),
            dampings: Seen::new("dampings given, and none", 5),
            sides: Seen::new("sides of 4,096", 2),
            places: Seen::new(
                "places of filtered blocks at each depth of each layout",
                5 * kinds * PLACES,
            ),
            taken: [false; 2],
            pictures: 0,
            cut: 0,
        }
    }

    /// A case of the k-th plane, where it was accepted.
    pub fn see<C: FrameCase>(&mut self, c: &C, k: usize, number: u32) {
        if number != 0 {
            return;
        }
        let Size {
            width,
            height,
            depth,
        } = c.size();
        let of_depth = 5 * k + usize::from(depth) - 8;
        self.depths.see(of_depth);
        for used in c.pairs() {
            self.taken[0] = true;
            let number = (0..PAIRS).position(|n| pair(n) == used);
            self.pairs
                .see(of_depth * PAIRS + number.unwrap_or(usize::MAX / PAIRS));
        }
        if let Some(d) = c.damping() {
            self.taken[1] = true;
            self.dampings.see(match d.unstated {
                0 => usize::from(d.signalled) - 3,
                _ => 4,
            });
        }
        if width.min(height) >= 40 {
            for block in (0..c.size().blocks()).filter(|&block| c.filters(block)) {
                self.places.see(of_depth * PLACES + place(&c.size(), block));
            }
        }
        if width == SIDE_MAX {
            self.sides.see(0);
        }
        if height == SIDE_MAX {
            self.sides.see(1);
        }
        self.pictures += 1;
        let cut = |side: usize| side > 64 && !side.is_multiple_of(64);
        self.cut += usize::from(cut(width) && cut(height));
    }

    /// Each of them must have occurred; and a quarter of the pictures must be over 64 in both
    /// sides, with partial units in both.
    pub fn check(&self, tally: &mut Tally) {
        self.depths.check(tally);
        self.sides.check(tally);
        if self.taken[0] {
            self.pairs.check(tally);
            self.places.check(tally);
        }
        if self.taken[1] {
            self.dampings.check(tally);
        }
        let quarter = 4 * self.cut >= self.pictures;
        tally.number("a quarter with partial units", i64::from(quarter), 1);
    }
}
