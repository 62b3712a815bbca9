//! What the programs that time calls share: the picture, the calls that are timed on it, the
//! rounds, and the lines that come of them.

pub mod blocks;
pub mod encoder;
pub mod frames;
pub mod scene;
pub mod table;
pub mod timing;

use scene::{DEPTHS, HEIGHT, Scene, WIDTH};
use support::frame::Size;
use support::planes::SIDE_MAX;
use table::Table;

/// The sizes of the first scene and of the largest picture.
pub fn sizes() -> (Size, Size) {
    let size = Size {
        width: WIDTH,
        height: HEIGHT,
        depth: DEPTHS[0],
    };
    let large = Size {
        width: SIDE_MAX,
        height: SIDE_MAX,
        ..size
    };
    (size, large)
}

/// The lines of each scene, and of the frame calls on the first one repeated over the largest
/// picture.
pub fn lines(table: &mut Table, scenes: &[Scene]) {
    for scene in scenes {
        blocks::lines(table, scene);
        frames::lines(table, scene, scene.size);
    }
    frames::lines(table, &scenes[0], sizes().1);
}
