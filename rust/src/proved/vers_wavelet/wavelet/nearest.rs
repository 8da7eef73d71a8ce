//! The nearest symbol of a range on one side of a symbol, by one descent through the levels.

use crate::rattle::prelude::*;

use crate::proved::vers_wavelet::wavelet::digits::{Digits, copy_digits};
use crate::proved::vers_wavelet::wavelet::level::{Part, chosen_position, part_of_bit, zeros_before_both};
use crate::proved::vers_wavelet::wavelet::walk::find_kth;
use crate::rattle::Allocator;
use crate::proved::vers_rank::fast_rs_vec::RsVec;
use crate::proved::vers_tally::tally::Tally;

// The positions of a level, counted from 1, whose symbols share all digits of the sought one but the last,
// which differs on the requested side. If there are none, it ends where it starts.
#[derive(Clone, Copy)]
pub(super) struct Beside {
    pub(super) level: usize,
    pub(super) start: usize,
    pub(super) end: usize,
}

// The positions that the digits of a symbol lead to, and the last ones that were passed on the side.
#[derive(Clone, Copy)]
pub(super) struct Trail {
    pub(super) part: Part,
    pub(super) beside: Beside,
}

// Returns the trail after level `k`. The range passed on the side is selected without a branch.
#[inline(always)]
fn follow_level<A: Allocator + Copy, D: Digits>(
    levels: &[RsVec<A>],
    len: usize,
    k: usize,
    is_up: bool,
    symbol: &D,
    trail: Trail,
    tally: &mut Tally,
) -> Trail {
    let level = &levels[k];
    let part = trail.part;
    let bit = symbol.digit(levels.len() - (k + 1));
    let zeros = zeros_before_both(level, part.start, part.end, tally);
    let left = Beside {
        level: k + 1,
        start: chosen_position(level, is_up, part.start, zeros.first),
        end: chosen_position(level, is_up, part.end, zeros.last),
    };
    let next = part_of_bit(level, bit, part, zeros);
    if bit == is_up || left.start == left.end {
        return Trail {
            part: next,
            beside: trail.beside,
        };
    }
    Trail {
        part: next,
        beside: left,
    }
}

// Returns the trail of a symbol, which ends when none of the range's symbols share its digits so far.
#[inline(always)]
fn follow<A: Allocator + Copy, D: Digits>(
    levels: &[RsVec<A>],
    len: usize,
    start: usize,
    end: usize,
    is_up: bool,
    symbol: &D,
    tally: &mut Tally,
) -> Trail {
    let part = Part {
        start,
        end,
        less: 0,
    };
    let beside = Beside {
        level: 0,
        start: 0,
        end: 0,
    };
    let mut trail = Trail { part, beside };
    for k in 0..levels.len() {
        if trail.part.start == trail.part.end {
            return trail;
        }
        trail = follow_level(levels, len, k, is_up, symbol, trail, tally);
    }
    trail
}

// Returns the index of the first of `many` elements, or of the last if `is_up` is false.
#[inline(always)]
fn first_or_last(is_up: bool, many: usize) -> usize {
    if is_up { 0 } else { many - 1 }
}

// Writes the least symbol of the range next to a symbol into a number that is 0, or the greatest if `is_up` is
// false: the digits above, the digit that differs from the symbol's, and those found below.
#[inline(always)]
fn write_beside<A: Allocator + Copy, D: Digits>(
    levels: &[RsVec<A>],
    len: usize,
    is_up: bool,
    symbol: &D,
    beside: Beside,
    answer: &mut D,
    tally: &mut Tally,
) {
    let last = levels.len() - beside.level;
    copy_digits(symbol, last + 1, levels.len(), answer);
    answer.put_digit(last, is_up);
    let i = first_or_last(is_up, beside.end - beside.start);
    let below = &levels[beside.level..];
    find_kth(below, len, beside.start, beside.end, i, answer, tally);
}

// Returns true if a range has a symbol that is at least a symbol, or, if `is_up` is false, one that is at most
// it; and writes the nearest of these into a number that is 0. It is the symbol itself if the range has it.
#[inline(always)]
pub(super) fn find_nearest<A: Allocator + Copy, D: Digits>(
    levels: &[RsVec<A>],
    len: usize,
    start: usize,
    end: usize,
    is_up: bool,
    symbol: &D,
    answer: &mut D,
    tally: &mut Tally,
) -> bool {
    let trail = follow(levels, len, start, end, is_up, symbol, tally);
    if trail.part.start < trail.part.end {
        copy_digits(symbol, 0, levels.len(), answer);
        return true;
    }
    let beside = trail.beside;
    if beside.start == beside.end {
        return false;
    }
    write_beside(levels, len, is_up, symbol, beside, answer, tally);
    true
}
