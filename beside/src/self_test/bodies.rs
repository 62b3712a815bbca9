//! The reference's helpers `sample`, `Pel::narrow` and the sums do what the rules assume.

use reference::MARK;
use support::random::Random;
use support::report::Tally;

pub fn check(tally: &mut Tally, r: &mut Random) {
    sample(tally, r);
    for v in 0..1 << 16 {
        tally.number("narrow", reference::narrow(v), v);
    }
    for depth in 8..=12 {
        for _ in 0..20 {
            sums(tally, r, depth);
        }
    }
}

/// A sample on the plane, 16384 up to 3 positions off it.
fn sample(tally: &mut Tally, r: &mut Random) {
    for (width, height) in [(1, 1), (1, 5), (5, 1), (8, 8), (3, 7)] {
        let plane = r.samples((width * height) as usize, 12);
        for y in -3..height + 3 {
            for x in -3..width + 3 {
                let on = (0..width).contains(&x) && (0..height).contains(&y);
                let expected = if on {
                    plane[(y * width + x) as usize]
                } else {
                    MARK
                };
                let got = reference::sample(&plane, width as usize, x, y);
                tally.number(&format!("sample {x} {y}"), got, expected);
            }
        }
    }
    tally.number("mark", MARK, 16384);
}

/// The sums of d, of d * d and of s * d over a whole block.
fn sums(tally: &mut Tally, r: &mut Random, depth: u8) {
    let (width, x, y) = (11, 2, 1);
    let original = r.samples(width * 10, depth);
    let mut trial = [[0i32; 64]; 12];
    for block in &mut trial {
        let samples = r.samples(64, depth);
        *block = std::array::from_fn(|i| samples[i].into());
    }
    let got = reference::cand_sums_8x8(&original, width, x, y, &trial);
    for (block, got) in trial.iter().zip(got) {
        let mut expected = vec![0i64; 3];
        for (i, &d) in block.iter().enumerate() {
            let (d, s) = (i64::from(d), original[(y + i / 8) * width + x + i % 8]);
            expected[0] += d;
            expected[1] += d * d;
            expected[2] += i64::from(s) * d;
        }
        tally.same(&"sums", got.to_vec(), expected);
    }
}
