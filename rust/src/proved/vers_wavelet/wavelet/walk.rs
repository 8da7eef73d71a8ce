//! Walks through the levels of a wavelet matrix, each for symbols of both kinds.

use crate::rattle::prelude::*;

use crate::proved::vers_wavelet::wavelet::digits::Digits;
use crate::proved::vers_wavelet::wavelet::level::{
    Choice, Part, choose_level, is_of_bit, narrow_level, next_position, position_above, read_level,
};
use crate::rattle::Allocator;
use crate::proved::vers_rank::fast_rs_vec::RsVec;
use crate::proved::vers_tally::tally::Tally;

// Returns the number of occurrences of a symbol in a range, as the distance of two positions, and the number of
// symbols of the range below it. If no position shares the digits so far, the levels below are not read.
#[inline(always)]
pub(super) fn narrow<A: Allocator + Copy, D: Digits>(
    levels: &[RsVec<A>],
    len: usize,
    start: usize,
    end: usize,
    symbol: &D,
    tally: &mut Tally,
) -> Part {
    let mut part = Part {
        start,
        end,
        less: 0,
    };
    for k in 0..levels.len() {
        if part.start == part.end {
            return part;
        }
        let bit = symbol.digit(levels.len() - (k + 1));
        part = narrow_level(&levels[k], bit, part, tally);
    }
    part
}

// Returns where the positions from `position` on that have a symbol begin below the last level.
#[inline(always)]
pub(super) fn descend<A: Allocator + Copy, D: Digits>(
    levels: &[RsVec<A>],
    len: usize,
    position: usize,
    symbol: &D,
    tally: &mut Tally,
) -> usize {
    let mut at = position;
    for k in 0..levels.len() {
        let bit = symbol.digit(levels.len() - (k + 1));
        at = next_position(&levels[k], bit, at, tally);
    }
    at
}

// Maps a position below the last level back to its position in the list. Returns `None` if some level has the
// other bit, so a different symbol is there.
#[inline(always)]
pub(super) fn climb<A: Allocator + Copy, D: Digits>(
    levels: &[RsVec<A>],
    len: usize,
    symbol: &D,
    target: usize,
    tally: &mut Tally,
) -> Option<usize> {
    let mut position = target;
    for i in 0..levels.len() {
        let k = levels.len() - (i + 1);
        let bit = symbol.digit(i);
        if !is_of_bit(&levels[k], bit, position) {
            return None;
        }
        position = position_above(&levels[k], bit, position, tally);
    }
    Some(position)
}

// Adds the symbol at a position of some levels to a number, whose digits of these levels are zeros, and returns
// the position below the last level.
#[inline(always)]
pub(super) fn read_symbol<A: Allocator + Copy, D: Digits>(
    levels: &[RsVec<A>],
    len: usize,
    position: usize,
    answer: &mut D,
    tally: &mut Tally,
) -> usize {
    let mut at = position;
    for k in 0..levels.len() {
        let step = read_level(&levels[k], at, tally);
        answer.put_digit(levels.len() - (k + 1), step.bit);
        at = step.position;
    }
    at
}

// Adds the `i`-th smallest element of a range of some levels to a number, whose digits of these levels are zeros.
#[inline(always)]
pub(super) fn find_kth<A: Allocator + Copy, D: Digits>(
    levels: &[RsVec<A>],
    len: usize,
    start: usize,
    end: usize,
    i: usize,
    answer: &mut D,
    tally: &mut Tally,
) {
    let mut choice = Choice {
        start,
        end,
        left: i,
        bit: false,
    };
    for k in 0..levels.len() {
        choice = choose_level(&levels[k], choice, tally);
        answer.put_digit(levels.len() - (k + 1), choice.bit);
    }
}
