//! Masks of a block of up to 128 items: the positions of the least items of all prefixes and suffixes of its
//! parts. The whole block is one part, or each 16 items are.

use crate::rattle::prelude::*;

use crate::proved::vers_rmq::rmq::fast_rmq::{BLOCK, PART};

// The two masks of a block for one width of its parts.
#[derive(Clone, Copy)]
pub(super) struct Masks {
    pub(super) prefixes: u128,
    pub(super) suffixes: u128,
}

// A mask so far, and the first position of the least of the items that it covers.
#[derive(Clone, Copy)]
pub(super) struct Partial {
    pub(super) mask: u128,
    pub(super) least: usize,
}

// Returns the bits with one more 1, at `d`.
#[inline(always)]
fn with_one(bits: u64, d: usize) -> u64 {
    bits | 1 << d
}

// Returns the mask with one 1, at `d`.
#[inline(always)]
fn one_at(d: usize) -> u128 {
    1 << d
}

// Returns the mask with the bits, of which the first goes to `d`.
#[inline(always)]
fn with_bits(mask: u128, bits: u64, d: usize) -> u128 {
    mask | (bits as u128) << d
}

// Returns the prefix mask up to before `from`, extended by the items from there to before `to`.
#[inline(always)]
fn more_prefixes(items: &[u64], start: usize, from: usize, to: usize, done: Partial) -> Partial {
    let mut bits = 0;
    let mut least = done.least;
    let mut value = items[least];
    for k in from..to {
        let here = items[k];
        if here < value {
            bits = with_one(bits, k - from);
            least = k;
            value = here;
        }
    }
    let mask = with_bits(done.mask, bits, from - start);
    Partial { mask, least }
}

// Returns the prefix mask of the part from `from` to before `to`.
#[inline(always)]
fn part_prefixes(items: &[u64], start: usize, from: usize, to: usize) -> Partial {
    let first = Partial {
        mask: one_at(from - start),
        least: from,
    };
    more_prefixes(items, start, from + 1, to, first)
}

// Returns the prefix mask up to before `from`, extended by a part whose least item is at `least`.
#[inline(always)]
fn prefixes_past(
    items: &[u64],
    start: usize,
    from: usize,
    to: usize,
    done: Partial,
    least: usize,
) -> Partial {
    if items[least] < items[done.least] {
        more_prefixes(items, start, from, to, done)
    } else {
        done
    }
}

// Returns the prefix masks of the block from `start` to before `end`, of all of it and by parts of 16 items,
// and the first position of its least item.
pub(super) fn prefix_masks(items: &[u64], start: usize, end: usize) -> (u128, u128, usize) {
    let mut at = end.min(start + PART);
    let mut whole = part_prefixes(items, start, start, at);
    let mut parts = whole.mask;
    'parts: while at < end {
        let stop = end.min(at + PART);
        let part = part_prefixes(items, start, at, stop);
        parts |= part.mask;
        whole = prefixes_past(items, start, at, stop, whole, part.least);
        at = stop;
    }
    (whole.mask, parts, whole.least)
}

// Returns the suffix mask from `to` on, extended by the items before it from `from` on.
#[inline(always)]
fn more_suffixes(items: &[u64], start: usize, from: usize, to: usize, done: Partial) -> Partial {
    let mut bits = 0;
    let mut least = done.least;
    let mut value = items[least];
    let mut k = to;
    'down: while k > from {
        k -= 1;
        let here = items[k];
        if here <= value {
            bits = with_one(bits, k - from);
            least = k;
            value = here;
        }
    }
    let mask = with_bits(done.mask, bits, from - start);
    Partial { mask, least }
}

// Returns the suffix mask of the part from `from` to before `to`.
#[inline(always)]
fn part_suffixes(items: &[u64], start: usize, from: usize, to: usize) -> Partial {
    let last = Partial {
        mask: one_at(to - 1 - start),
        least: to - 1,
    };
    more_suffixes(items, start, from, to - 1, last)
}

// Returns the suffix mask from `to` on, extended by the part before it whose least item is at `least`.
#[inline(always)]
fn suffixes_past(
    items: &[u64],
    start: usize,
    from: usize,
    to: usize,
    done: Partial,
    least: usize,
) -> Partial {
    if items[least] <= items[done.least] {
        more_suffixes(items, start, from, to, done)
    } else {
        done
    }
}

// Returns the suffix masks of the block from `start` to before `end`: of all of it, and by parts of 16 items.
pub(super) fn suffix_masks(items: &[u64], start: usize, end: usize) -> (u128, u128) {
    let mut at = start + (end - 1 - start) / PART * PART;
    let mut whole = part_suffixes(items, start, at, end);
    let mut parts = whole.mask;
    'parts: while at > start {
        let stop = at;
        at -= PART;
        let part = part_suffixes(items, start, at, stop);
        parts |= part.mask;
        whole = suffixes_past(items, start, at, stop, whole, part.least);
    }
    (whole.mask, parts)
}

// Returns the last position up to `j` with a 1.
#[inline(always)]
pub(super) fn last_set(mask: u128, j: usize) -> usize {
    127 - (mask & u128::MAX >> (127 - j)).leading_zeros() as usize
}

// Returns the first position from `i` on with a 1.
#[inline(always)]
pub(super) fn first_set(mask: u128, i: usize) -> usize {
    i + (mask >> i).trailing_zeros() as usize
}
