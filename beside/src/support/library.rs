//! What is timed of a library: its calls as passes over a list of blocks or over a picture.
//! One program can time several libraries, each by its own implementation.

use crate::frame::Size;
use crate::frame::applying::Applying;
use crate::frame::comparing::Compared;

/// Where a block begins, and its direction and variance.
#[derive(Clone, Copy)]
pub struct Block {
    pub at: (usize, usize),
    pub dir: u8,
    pub variance: u32,
}

/// A plane that blocks are on.
#[derive(Clone, Copy)]
pub struct Samples<'a> {
    pub plane: &'a [u16],
    pub sides: (usize, usize),
    pub depth: u8,
}

/// The results of a block's call are those of the last block; all else is written as the calls
/// write it. Returned are the error codes of all calls, or'ed: 0 where each was accepted.
pub trait Library {
    /// Directions and variances of 8 by 8 blocks.
    fn direction(&self, blocks: &[Block], of: Samples, found: &mut (u8, u32)) -> u32;

    /// 8 by 8 blocks, filtered into a destination of the whole plane with working strengths
    /// and a working damping.
    fn filter(
        &self,
        blocks: &[Block],
        of: Samples,
        strengths: (u32, u32),
        damping: u8,
        dst: &mut [u16],
    ) -> u32;

    /// The twelve trial blocks, by luma's rules or by chroma's, of blocks of `side` by `side`.
    fn trial(
        &self,
        blocks: &[Block],
        of: Samples,
        side: usize,
        luma: bool,
        damping: u8,
        list: &mut [u16],
    ) -> u32;

    /// Weighted distances, or sums of squared differences, of blocks of two planes.
    fn distance(
        &self,
        blocks: &[Block],
        of: Samples,
        other: &[u16],
        weighted: bool,
        distance: &mut i64,
    ) -> u32;

    fn direction_pass(&self, dirs: &mut [u8], vars: &mut [u32], plane: &[u16], size: &Size) -> u32;

    fn trying(&self, totals: &mut [i64], c: &Compared) -> u32;

    fn measuring(
        &self,
        totals: &mut [i64],
        scratch: &mut [u16],
        c: &Compared,
        pair: (u8, u8),
    ) -> u32;

    fn applying(&self, dst: &mut [u16], c: &Applying) -> u32;
}
