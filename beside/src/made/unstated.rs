//! What the program `test_agreement` prints of the pictures tried with no damping stated: the
//! reference is passed the figure in force.

use super::{Blocks, frame, in_turn, lines, planes, told};
use reference::{Apply, Measure, Try};
use support::frame::{Kind, unstated};

pub fn all() {
    println!("luma, depth 10");
    let (dirs, _) = in_turn();
    let vars = vec![400_000; dirs.len()];
    printed(&(dirs, vars), [1, 101], Kind::Luma.rust());
    println!("chroma 4:4:4, depth 10");
    let chroma = Kind::Chroma { sx: 0, sy: 0 };
    printed(&in_turn(), [201, 301], chroma.rust());
}

/// A line per unit, of depth 10 and with the pairs of picture 1; and whether all agree, with
/// damping 3 given and with none stated.
fn printed(blocks: &Blocks, seeds: [u32; 2], functions: (Try, Measure, Apply)) {
    let (snapshot, original) = planes((0, 0), 10, seeds);
    let f = frame((0, 0), 10, unstated::figure(), blocks);
    let agreed = lines(&f, 1, &snapshot, &original, functions);
    told(agreed);
    told(agreed);
}
