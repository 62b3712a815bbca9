//! The samples and lists of a synthetic picture of 72 by 136, as in the crate `testlib_pictures`.

pub const WIDTH: usize = 72;
pub const HEIGHT: usize = 136;
pub const VISIBLE: (usize, usize) = (70, 131);
pub const BLOCKS: usize = WIDTH / 8 * (HEIGHT / 8);

/// Two blocks of eleven are skipped.
pub fn skips() -> Vec<u8> {
    let skipped = |b| (b * 7 + 3) % 11 < 2;
    (0..BLOCKS).map(|b| u8::from(skipped(b))).collect()
}

/// The trial numbers of a picture's units.
pub fn trials(units: usize, number: u32) -> Vec<usize> {
    let trial = |unit| (unit * 5 + number as usize * 2 + 1) % 12;
    (0..units).map(trial).collect()
}

/// The pair of a trial number.
pub fn pair(trial: usize) -> (u8, u8) {
    ([0, 1, 2, 4][trial % 4], (trial / 4) as u8)
}

/// A plane: slopes and squares with grain, which a seed gives.
pub fn made(width: usize, height: usize, depth: u8, seed: u32) -> Vec<u16> {
    let sample = |k| sample(k, width, depth, seed);
    (0..width * height).map(sample).collect()
}

/// Of 8 bits, or at depth 10 with two more.
fn sample(k: usize, width: usize, depth: u8, seed: u32) -> u16 {
    let grain = noise(k, seed);
    let value = 26 + texture(k % width, k / width) + grain % 36;
    if depth == 8 {
        value as u16
    } else {
        (value * 4 + grain % 4) as u16
    }
}

/// 0 to 255, by a position and a seed.
fn noise(k: usize, seed: u32) -> u32 {
    let a = ((k % 65536) as u32 * 40503 + seed * 9973) % 65536;
    (a * 25173 + 13849) % 65536 / 256
}

/// Slopes with squares of 6 by 5 on them.
fn texture(x: usize, y: usize) -> u32 {
    let slope = ((x % 96 * 2 + y % 96) % 96) as u32;
    let square = !(x / 6 % 2 + y / 5 % 2).is_multiple_of(2);
    slope + if square { 64 } else { 0 }
}
