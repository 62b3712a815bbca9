//! The calls on whole pictures.

use crate::scene::{DAMPING, Scene, tiled};
use crate::table::Table;
use std::hint::black_box;
use support::frame::applying::Applying;
use support::frame::comparing::Compared;
use support::frame::{DampingChoice, Kind, Picture, Size};
use support::library::Library;

/// Luma, and a chroma plane in 4:2:0.
const PLANES: [(&str, Kind); 2] = [
    ("luma", Kind::Luma),
    ("chroma", Kind::Chroma { sx: 1, sy: 1 }),
];

/// Luma and a chroma plane of one size, with their names.
struct Pictures<'a, 'b> {
    table: &'a mut Table<'b>,
    planes: [(&'static str, Compared); 2],
}

/// The lines of the scene, repeated over a picture of that size.
pub fn lines(table: &mut Table, scene: &Scene, size: Size) {
    let planes = PLANES.map(|(name, kind)| (name, compared(scene, kind, size)));
    let mut pictures = Pictures { table, planes };
    pictures.direction_pass();
    for plane in 0..2 {
        pictures.trying(plane);
    }
    for plane in 0..2 {
        pictures.applying(plane, (4, 2));
    }
    for pair in [(0, 0), (4, 2)] {
        for plane in 0..2 {
            pictures.measuring(plane, pair);
        }
    }
}

impl Pictures<'_, '_> {
    fn direction_pass(&mut self) {
        let Compared { picture, plane, .. } = self.planes[0].1.clone();
        let size = picture.size;
        self.line(
            "direction pass",
            (vec![0; size.blocks()], vec![0; size.blocks()]),
            |library, (dirs, vars)| library.direction_pass(dirs, vars, black_box(&plane), &size),
            |lists| {
                let plane = black_box(&plane);
                *lists = reference::direction_pass(plane, size.width, size.height, size.depth);
            },
        );
    }

    fn trying(&mut self, plane: usize) {
        let (name, c) = self.planes[plane].clone();
        let ((try_all, _, _), frame) = (c.picture.kind.rust(), c.frame());
        self.line(
            &format!("try {name}"),
            vec![0; 12 * c.picture.size.units()],
            |library, totals| library.trying(totals, black_box(&c)),
            |totals| {
                let c = black_box(&c);
                *totals = try_all(&frame, &c.plane, &c.original).into_flattened();
            },
        );
    }

    fn applying(&mut self, plane: usize, pair: (u8, u8)) {
        let (name, c) = self.planes[plane].clone();
        let ((_, _, apply), frame) = (c.picture.kind.rust(), c.frame());
        let pairs = vec![pair; c.picture.size.units()];
        let case = Applying::new(c.picture, c.plane, &pairs, Vec::new());
        self.line(
            &format!("apply {pair:?} {name}"),
            case.snapshot.clone(),
            |library, dst| library.applying(dst, black_box(&case)),
            |dst| apply(&frame, dst, black_box(&case.snapshot), &pairs),
        );
    }

    fn measuring(&mut self, plane: usize, pair: (u8, u8)) {
        let (name, c) = self.planes[plane].clone();
        let ((_, measure, _), frame) = (c.picture.kind.rust(), c.frame());
        let lists = (
            vec![0; c.picture.size.units()],
            vec![0; c.picture.scratch()],
        );
        self.line(
            &format!("measure {pair:?} {name}"),
            lists,
            |library, (totals, scratch)| {
                library.measuring(totals, scratch, black_box(&c), black_box(pair))
            },
            |(totals, _)| {
                let (c, (pri, sec)) = (black_box(&c), black_box(pair));
                *totals = measure(&frame, &c.plane, &c.original, pri, sec);
            },
        );
    }

    /// Times a call that writes to the caller's slices.
    fn line<T: Clone + PartialEq>(
        &mut self,
        call: &str,
        before: T,
        ours: impl Fn(&dyn Library, &mut T) -> u32,
        rust: impl Fn(&mut T),
    ) {
        let size = self.planes[0].1.picture.size;
        if !(self.table.plan.wanted)(call, size) {
            return;
        }
        let mut rust_out = before.clone();
        let of = (call, size, size.blocks());
        let outs = self.table.written(of, (before, &mut rust_out), ours, rust);
        for (k, (refused, out)) in outs.into_iter().enumerate() {
            let same = refused == 0 && out == rust_out;
            self.table.answers(call, size, k, same);
        }
    }
}

/// All of it visible and no block skipped; directions and variances are luma's own.
fn compared(scene: &Scene, kind: Kind, size: Size) -> Compared {
    let Size {
        width,
        height,
        depth,
    } = size;
    let luma = tiled(&scene.plane, (width, height));
    let (dirs, vars) = reference::direction_pass(&luma, width, height, depth);
    let sides = kind.sides(&size);
    Compared {
        picture: Picture {
            kind,
            size,
            skip: vec![0; dirs.len()],
            dirs,
            vars,
            damping: DampingChoice {
                signalled: DAMPING,
                unstated: 0,
            },
        },
        visible_width: width,
        visible_height: height,
        plane: tiled(&scene.plane, sides),
        original: tiled(&scene.other, sides),
    }
}
