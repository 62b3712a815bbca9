//! The square root of the weighted distance against the processor's own, one value per block.

use ours::bare;
use std::hint::black_box;
use support::frame::Size;
use support::random::Random;
use timed::table::Table;
use timed::timing::Pass;

const VALUES: usize = 4800;
const SEED: u64 = 64;

/// 64 squares of the largest difference at depth 8.
const LIMIT: u64 = 64 * 255 * 255;

/// What the weighted distance takes square roots of at depth 8: c2 and a product of two variances.
fn values() -> Vec<f64> {
    let mut r = Random::new(SEED);
    let mut spread = || r.below(LIMIT + 1) as f64;
    (0..VALUES)
        .map(|_| 20_000.0 + spread() * spread())
        .collect()
}

pub fn line(table: &mut Table, size: Size) {
    let call = "square root, the processor's for the reference";
    let values = values();
    let rust: Pass = Box::new(|| {
        for &v in &values {
            black_box(black_box(v).sqrt());
        }
    });
    let ours: Pass = Box::new(|| {
        for &v in &values {
            black_box(bare::root(black_box(v)));
        }
    });
    table.time(call, size, values.len(), vec![rust, ours]);
    let same = |&v: &f64| bare::root(v).to_bits() == v.sqrt().to_bits();
    table.answers(call, size, 0, values.iter().all(same));
}
