//! The entries as passes over blocks and pictures: for measuring.

use crate::{bare, frame};
use std::hint::black_box;
use support::frame::Size;
use support::frame::applying::Applying;
use support::frame::comparing::Compared;
use support::library::{Block, Library, Samples};

/// The library that is linked in.
pub struct Linked;

/// Makes a call for each block; returned are the error codes, or'ed.
#[inline]
fn each(blocks: &[Block], mut call: impl FnMut(&Block) -> u32) -> u32 {
    blocks.iter().fold(0, |refused, b| refused | call(b))
}

impl Library for Linked {
    fn direction(&self, blocks: &[Block], of: Samples, found: &mut (u8, u32)) -> u32 {
        each(blocks, |b| {
            let plane = black_box(of.plane);
            let (number, direction, variance) = bare::direction(plane, of.sides, b.at, of.depth);
            *found = black_box((direction, variance));
            number
        })
    }

    fn filter(
        &self,
        blocks: &[Block],
        of: Samples,
        strengths: (u32, u32),
        damping: u8,
        dst: &mut [u16],
    ) -> u32 {
        let (of, block) = (black_box(of), (8, 8));
        each(blocks, |&Block { at, dir, .. }| {
            bare::filter_block(
                dst, of.plane, of.sides, at, block, strengths, dir, damping, of.depth,
            )
        })
    }

    fn trial(
        &self,
        blocks: &[Block],
        of: Samples,
        side: usize,
        luma: bool,
        damping: u8,
        list: &mut [u16],
    ) -> u32 {
        each(blocks, |b| {
            let (plane, block) = (black_box(of.plane), (side, side));
            let variance = luma.then_some(b.variance);
            let number = bare::trial(
                list, plane, of.sides, b.at, block, variance, b.dir, damping, of.depth,
            );
            black_box(&mut *list);
            number
        })
    }

    fn distance(
        &self,
        blocks: &[Block],
        of: Samples,
        other: &[u16],
        weighted: bool,
        distance: &mut i64,
    ) -> u32 {
        each(blocks, |b| {
            let planes = black_box((of.plane, other));
            let (number, found) = bare::distance(planes, of.sides, b.at, of.depth, weighted);
            *distance = black_box(found);
            number
        })
    }

    fn direction_pass(&self, dirs: &mut [u8], vars: &mut [u32], plane: &[u16], size: &Size) -> u32 {
        frame::bare::direction_pass(dirs, vars, plane, size)
    }

    fn trying(&self, totals: &mut [i64], c: &Compared) -> u32 {
        frame::bare::trying(totals, c)
    }

    fn measuring(
        &self,
        totals: &mut [i64],
        scratch: &mut [u16],
        c: &Compared,
        pair: (u8, u8),
    ) -> u32 {
        frame::bare::measuring(totals, scratch, c, pair)
    }

    fn applying(&self, dst: &mut [u16], c: &Applying) -> u32 {
        frame::bare::applying(dst, c)
    }
}
