//! Random planes to take blocks from.

use support::planes::{self, DEPTHS, Plane, SIDE_MAX, SMALL};
use support::random::Random;
use support::spot::Spot;

/// Blocks of one plane.
pub const BLOCKS: usize = 60;

/// A plane of each size and depth in each round, and the largest there is, with the
/// number of blocks taken of it.
pub fn each_plane(r: &mut Random, rounds: usize, mut work: impl FnMut(&mut Random, Plane, usize)) {
    for _ in 0..rounds {
        for size in planes::sizes(r) {
            for depth in DEPTHS {
                let plane = Plane::random(r, size, depth);
                work(r, plane, BLOCKS);
            }
        }
    }
    let samples = (0..SIDE_MAX * SIDE_MAX).map(|k| (k * k / 512 % 256) as u16);
    let plane = Plane::new(samples.collect(), SIDE_MAX, SIDE_MAX, 8);
    work(r, plane, 8);
}

/// The number of a small plane's size; none for a larger one.
pub fn size_number(s: &Spot) -> usize {
    if s.width <= SMALL && s.height <= SMALL {
        (s.height - 1) * SMALL + s.width - 1
    } else {
        usize::MAX
    }
}

/// Small planes for cases of any numbers.
pub fn any_plane(r: &mut Random, rounds: usize, mut work: impl FnMut(&mut Random, Plane)) {
    for _ in 0..rounds * 1_000 {
        let small = SMALL as i64;
        let size = (r.between(1, small) as usize, r.between(1, small) as usize);
        let depth = r.between(8, 12) as u8;
        let plane = Plane::random(r, size, depth);
        work(r, plane);
    }
}
