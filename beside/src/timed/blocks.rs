//! The calls on one block: direction, block filter, trial and distances.

use crate::scene::{HEIGHT, Scene, WIDTH, tiled};
use crate::table::Table;
use std::hint::black_box;
use support::library::{Block, Library, Samples};

/// A kind of trial: its name, whether luma's rules apply, and what the sides are divided by.
type Way = (&'static str, bool, usize);

const WAYS: [Way; 3] = [
    ("trial luma", true, 1),
    ("trial chroma", false, 2),
    ("trial chroma 4:4:4", false, 1),
];

/// The lines of one picture.
struct Lines<'a, 'b> {
    table: &'a mut Table<'b>,
    scene: &'a Scene,
}

pub fn lines(table: &mut Table, scene: &Scene) {
    let (all, inside, edge) = (
        scene.blocks(|_| true),
        scene.blocks(|edge| !edge),
        scene.blocks(|edge| edge),
    );
    let mut lines = Lines { table, scene };
    lines.direction(&inside);
    for (place, blocks) in [("inside", &inside), ("at the edge", &edge)] {
        for pair in [(4, 2), (4, 0), (0, 2), (0, 0)] {
            lines.filter(place, blocks, pair);
        }
    }
    for way in WAYS {
        lines.trial(&inside, way);
    }
    lines.distance("distance", &all, true);
    lines.distance("squares", &all, false);
}

impl Lines<'_, '_> {
    fn direction(&mut self, blocks: &[Block]) {
        let of = self.scene.samples();
        let ours = |library: &dyn Library, blocks: &[Block], found: &mut (u8, u32)| {
            library.direction(blocks, of, found)
        };
        let rust = |b: &Block, found: &mut (u8, u32)| {
            let (plane, (x, y)) = (black_box(of.plane), b.at);
            *found = reference::dispatch_direction(plane, WIDTH, x, y, of.depth);
        };
        let founds = ((0, 0), (0, 0));
        self.written("direction", blocks, founds, ours, each(rust), |a, b| a == b);
    }

    /// Over whole blocks.
    fn distance(&mut self, call: &str, blocks: &[Block], weighted: bool) {
        let (of, other) = (self.scene.samples(), &self.scene.other[..]);
        let ours = |library: &dyn Library, blocks: &[Block], distance: &mut i64| {
            library.distance(blocks, of, other, weighted, distance)
        };
        let rust = |b: &Block, distance: &mut i64| {
            let ((a, b), (x, y)) = (black_box((of.plane, other)), b.at);
            *distance = if weighted {
                reference::cdef_dist_8x8(a, b, WIDTH, HEIGHT, x, y, of.depth)
            } else {
                reference::block_sse_8x8(a, b, WIDTH, HEIGHT, x, y)
            };
        };
        self.written(call, blocks, (0, 0), ours, each(rust), |a, b| a == b);
    }

    /// The twelve trial blocks.
    fn trial(&mut self, blocks: &[Block], (call, luma, by): Way) {
        let (sides, side) = ((WIDTH / by, HEIGHT / by), 8 / by);
        let plane = &tiled(&self.scene.plane, sides);
        let (damping, depth) = (self.scene.damping(luma), self.scene.size.depth);
        let of = Samples {
            plane,
            sides,
            depth,
        };
        let divided = |b: &Block| Block {
            at: (b.at.0 / by, b.at.1 / by),
            ..*b
        };
        let blocks: Vec<Block> = blocks.iter().map(divided).collect();
        let ours = |library: &dyn Library, blocks: &[Block], list: &mut [u16; 768]| {
            library.trial(blocks, of, side, luma, damping, list)
        };
        let rust = |b: &Block, list: &mut reference::Trial| {
            let (plane, width, (x, y)) = (black_box(plane), sides.0, b.at);
            let variance = luma.then_some(b.variance);
            reference::cdef_block_candidates(
                plane, width, x, y, side, side, b.dir, variance, damping, depth, list,
            );
        };
        let same = |ours: &[u16; 768], rust: &reference::Trial| {
            let mut both = ours.iter().zip(rust.as_flattened());
            both.all(|(&v, &w)| i32::from(v) == w)
        };
        let lists = ([0; 768], [[0; 64]; 12]);
        self.written(call, &blocks, lists, ours, each(rust), same);
    }

    /// Into a destination of the whole plane.
    fn filter(&mut self, place: &str, blocks: &[Block], pair: (u32, u32)) {
        let (of, damping) = (self.scene.samples(), self.scene.damping(true));
        let strengths = (self.scene.strength(pair.0), self.scene.strength(pair.1));
        let ours = |library: &dyn Library, blocks: &[Block], dst: &mut Vec<u16>| {
            library.filter(blocks, of, black_box(strengths), damping, dst)
        };
        let rust = |blocks: &[Block], dst: &mut Vec<u16>| {
            let (plane, (pri, sec)) = black_box((of.plane, strengths));
            for b in blocks {
                let ((x, y), dir) = (b.at, b.dir);
                reference::cdef_filter_block(
                    dst, 0, plane, WIDTH, x, y, 8, 8, pri, sec, dir, damping, of.depth,
                );
            }
        };
        let call = format!("filter {pair:?}, {place}");
        let planes = (of.plane.to_vec(), of.plane.to_vec());
        self.written(&call, blocks, planes, ours, rust, |a, b| a == b);
    }

    /// Times passes that write to the caller's slices, and compares those after each block.
    fn written<T: Clone, S>(
        &mut self,
        call: &str,
        blocks: &[Block],
        (before, mut rust_out): (T, S),
        ours: impl Fn(&dyn Library, &[Block], &mut T) -> u32,
        rust: impl Fn(&[Block], &mut S),
        same: impl Fn(&T, &S) -> bool,
    ) {
        let size = self.scene.size;
        if !(self.table.plan.wanted)(call, size) {
            return;
        }
        let outs = self.table.written(
            (call, size, blocks.len()),
            (before, &mut rust_out),
            |library, out| ours(library, blocks, out),
            |out| rust(blocks, out),
        );
        for (k, (refused, mut out)) in outs.into_iter().enumerate() {
            let library = self.table.plan.libraries[k].1;
            let mut each = blocks.chunks(1);
            let same = each.all(|b| {
                rust(b, &mut rust_out);
                ours(library, b, &mut out) == 0 && same(&out, &rust_out)
            });
            self.table.answers(call, size, k, refused == 0 && same);
        }
    }
}

/// A pass that does it to each block.
fn each<T>(call: impl Fn(&Block, &mut T)) -> impl Fn(&[Block], &mut T) {
    move |blocks, out| {
        for b in blocks {
            call(b, out);
            black_box(&mut *out);
        }
    }
}
