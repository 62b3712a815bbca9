//! The picture that is measured on, the same in every run.

use std::fmt::{Display, Formatter, Result};
use support::frame::Size;
use support::library::{Block, Samples};
use support::random::Random;

pub const WIDTH: usize = 640;
pub const HEIGHT: usize = 480;
pub const DEPTHS: [u8; 2] = [8, 10];

/// The signalled damping.
pub const DAMPING: u8 = 5;

const SEED: u64 = 640_480;

pub struct Scene {
    pub size: Size,
    pub plane: Vec<u16>,
    /// The plane with more noise, to measure distances from.
    pub other: Vec<u16>,
    /// The direction and the variance of each 8 by 8 block, in rows.
    directions: Vec<u8>,
    variances: Vec<u32>,
}

/// A surface of the picture: a disc with a level, a slope and a texture of its own.
struct Surface {
    centre: (i64, i64),
    radius: i64,
    level: i64,
    slope: (i64, i64),
    across: (i64, i64),
    period: i64,
    height: i64,
}

impl Surface {
    fn random(r: &mut Random) -> Self {
        Surface {
            centre: (r.between(0, 639), r.between(0, 479)),
            radius: r.between(30, 160),
            level: r.between(40, 210),
            slope: (r.between(-20, 20), r.between(-20, 20)),
            across: (r.between(-8, 8), r.between(-8, 8)),
            period: r.between(24, 120),
            height: r.between(0, 14),
        }
    }

    fn covers(&self, x: i64, y: i64) -> bool {
        let (dx, dy) = (x - self.centre.0, y - self.centre.1);
        dx * dx + dy * dy < self.radius * self.radius
    }

    /// The level, tilted, with ridges that rise and fall along one direction.
    fn at(&self, x: i64, y: i64) -> i64 {
        let (dx, dy) = (x - self.centre.0, y - self.centre.1);
        let tilt = (self.slope.0 * dx + self.slope.1 * dy) / 64;
        let along = (self.across.0 * x + self.across.1 * y).rem_euclid(self.period);
        let ridge = (2 * along - self.period).abs() * self.height / self.period;
        self.level + tilt + ridge
    }
}

impl Scene {
    /// Slopes and textures under discs with edges, and noise over all of it. Bits past the
    /// eighth are noise too.
    pub fn new(depth: u8) -> Self {
        let r = &mut Random::new(SEED);
        let mut ground = Surface::random(r);
        ground.radius = 2_000;
        let discs: Vec<Surface> = (0..40).map(|_| Surface::random(r)).collect();
        let mut plane = Vec::with_capacity(WIDTH * HEIGHT);
        for y in 0..HEIGHT as i64 {
            for x in 0..WIDTH as i64 {
                let top = discs.iter().find(|d| d.covers(x, y)).unwrap_or(&ground);
                let noise = r.between(-2, 2) + r.between(-1, 1);
                plane.push((top.at(x, y) + noise).clamp(0, 255) as u16);
            }
        }
        let noisy = |&v: &u16| (i64::from(v) + r.between(-3, 3)).clamp(0, 255) as u16;
        let other: Vec<u16> = plane.iter().map(noisy).collect();
        let more = depth - 8;
        let mut deep = |v: u16| (v << more) + r.below(1 << more) as u16;
        let mut deepened = |p: Vec<u16>| -> Vec<u16> { p.into_iter().map(&mut deep).collect() };
        let (plane, other) = (deepened(plane), deepened(other));
        let (directions, variances) = reference::direction_pass(&plane, WIDTH, HEIGHT, depth);
        let size = Size {
            width: WIDTH,
            height: HEIGHT,
            depth,
        };
        Scene {
            size,
            plane,
            other,
            directions,
            variances,
        }
    }

    /// The plane, for calls on its blocks.
    pub fn samples(&self) -> Samples<'_> {
        Samples {
            plane: &self.plane,
            sides: (WIDTH, HEIGHT),
            depth: self.size.depth,
        }
    }

    /// The working damping.
    pub fn damping(&self, luma: bool) -> u8 {
        DAMPING + self.size.depth - 8 - u8::from(!luma)
    }

    /// The working strength.
    pub fn strength(&self, signalled: u32) -> u32 {
        signalled << (self.size.depth - 8)
    }

    /// The 8 by 8 blocks, at the edge or not.
    pub fn blocks(&self, wanted: impl Fn(bool) -> bool) -> Vec<Block> {
        let (columns, rows) = (WIDTH / 8, HEIGHT / 8);
        let mut list = Vec::new();
        for (k, (&dir, &variance)) in self.directions.iter().zip(&self.variances).enumerate() {
            let (bx, by) = (k % columns, k / columns);
            let edge = bx == 0 || by == 0 || bx == columns - 1 || by == rows - 1;
            if wanted(edge) {
                let at = (bx * 8, by * 8);
                list.push(Block { at, dir, variance });
            }
        }
        list
    }
}

impl Display for Scene {
    fn fmt(&self, f: &mut Formatter) -> Result {
        let mut counts = [0; 8];
        for &d in &self.directions {
            counts[d as usize] += 1;
        }
        write!(
            f,
            "picture: {WIDTH} by {HEIGHT} of u16, signalled damping {DAMPING}, seed {SEED}; \
             blocks of each direction: {counts:?}"
        )
    }
}

/// A plane of the scene's size, repeated over a larger one or cropped to a smaller.
pub fn tiled(plane: &[u16], (width, height): (usize, usize)) -> Vec<u16> {
    let rows = plane.chunks(WIDTH).cycle().take(height);
    rows.flat_map(|row| row.iter().cycle().take(width).copied())
        .collect()
}
