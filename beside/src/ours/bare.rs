//! The entries over slices and numbers, without guards around what they write: for measuring.

use crate::entries;

/// The error code, the direction and the variance.
#[inline]
pub fn direction(
    plane: &[u16],
    (width, height): (usize, usize),
    (x, y): (usize, usize),
    depth: u8,
) -> (u32, u8, u32) {
    let (mut direction, mut variance) = (0, 0);
    // SAFETY: the plane has the length given; two numbers are borrowed for the call.
    let number = unsafe {
        entries::quern_direction(
            plane.as_ptr(),
            plane.len(),
            width,
            height,
            x,
            y,
            depth,
            &mut direction,
            &mut variance,
        )
    };
    (number, direction, variance)
}

/// The error code; a destination that begins with the plane's first row is written.
#[inline]
#[allow(clippy::too_many_arguments)]
pub fn filter_block(
    dst: &mut [u16],
    plane: &[u16],
    (width, height): (usize, usize),
    (x, y): (usize, usize),
    (block_width, block_height): (usize, usize),
    (pri, sec): (u32, u32),
    dir: u8,
    damping: u8,
    depth: u8,
) -> u32 {
    // SAFETY: destination and plane have the lengths given.
    unsafe {
        entries::quern_filter_block(
            dst.as_mut_ptr(),
            dst.len(),
            0,
            plane.as_ptr(),
            plane.len(),
            width,
            height,
            x,
            y,
            block_width,
            block_height,
            pri,
            sec,
            dir,
            damping,
            depth,
        )
    }
}

/// The error code; the twelve trial blocks are written. Luma gives a variance, chroma none.
#[inline]
#[allow(clippy::too_many_arguments)]
pub fn trial(
    list: &mut [u16],
    plane: &[u16],
    (width, height): (usize, usize),
    (x, y): (usize, usize),
    (block_width, block_height): (usize, usize),
    variance: Option<u32>,
    dir: u8,
    damping: u8,
    depth: u8,
) -> u32 {
    // SAFETY: list and plane have the lengths given.
    unsafe {
        match variance {
            Some(variance) => entries::quern_trial_luma(
                list.as_mut_ptr(),
                list.len(),
                plane.as_ptr(),
                plane.len(),
                width,
                height,
                x,
                y,
                block_width,
                block_height,
                variance,
                dir,
                damping,
                depth,
            ),
            None => entries::quern_trial_chroma(
                list.as_mut_ptr(),
                list.len(),
                plane.as_ptr(),
                plane.len(),
                width,
                height,
                x,
                y,
                block_width,
                block_height,
                dir,
                damping,
                depth,
            ),
        }
    }
}

/// The error code, and the weighted distance or the sum of squared differences of two planes of
/// one size.
#[inline]
pub fn distance(
    (original, other): (&[u16], &[u16]),
    (width, height): (usize, usize),
    (x, y): (usize, usize),
    depth: u8,
    weighted: bool,
) -> (u32, i64) {
    let mut out = 0;
    macro_rules! number {
        ($entry:ident) => {
            entries::$entry(
                original.as_ptr(),
                original.len(),
                other.as_ptr(),
                other.len(),
                width,
                height,
                x,
                y,
                depth,
                &mut out,
            )
        };
    }
    // SAFETY: the planes have the lengths given; one number is borrowed for the call.
    let number = unsafe {
        if weighted {
            number!(quern_distance)
        } else {
            number!(quern_squares)
        }
    };
    (number, out)
}

/// The square root of a number from the smallest normal f64 on.
#[inline]
pub fn root(v: f64) -> f64 {
    // SAFETY: the entry accepts any number and borrows nothing.
    unsafe { entries::quern_root(v) }
}
