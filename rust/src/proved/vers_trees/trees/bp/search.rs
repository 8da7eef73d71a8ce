//! Searches for a sum: first in the block of a position, then in the tree for another block, then there.

use crate::rattle::prelude::*;

use crate::proved::vers_trees::trees::bp::min_max::MinMaxTree;
use crate::proved::vers_trees::trees::bp::scan::{scan_backward, scan_forward, step};
use crate::rattle::Allocator;
use crate::proved::vers_rank::fast_rs_vec::RsVec;
use crate::proved::vers_tally::tally::Tally;

// Returns true if the position right after `i` is the result of a forward search.
#[inline(always)]
fn is_right_after<A: Allocator + Copy>(bits: &RsVec<A>, i: usize, r: i64, tally: &mut Tally) -> bool {
    let next = i + 1;
    if next >= bits.len() {
        return false;
    }
    step(bits.is_one_counted(next, tally)) == r
}

// Returns true if the position right before `i` is the result of a backward search.
#[inline(always)]
fn is_right_before<A: Allocator + Copy>(
    bits: &RsVec<A>,
    i: usize,
    r: i64,
    tally: &mut Tally,
) -> bool {
    step(!bits.is_one_counted(i - 1, tally)) == r
}

// A list of parentheses, and the tree over its blocks of `BLOCK_SIZE` bits.
#[derive(Clone, Copy)]
pub(super) struct Searched<'a, const BLOCK_SIZE: usize, A: Allocator + Copy> {
    pub(super) bits: &'a RsVec<A>,
    pub(super) tree: &'a MinMaxTree<A>,
}

impl<'a, const BLOCK_SIZE: usize, A: Allocator + Copy> Searched<'a, BLOCK_SIZE, A> {
    // Returns the first position after `i` past which the excess is `r` more than past `i`. An adjacent
    // position is found by its bit.
    #[inline(always)]
    pub(super) fn forward(self, i: usize, r: i64, tally: &mut Tally) -> Option<usize> {
        let len = self.bits.len();
        if i >= len {
            return None;
        }
        if is_right_after(self.bits, i, r, tally) {
            return Some(i + 1);
        }
        let block = i / BLOCK_SIZE;
        let end = (block * BLOCK_SIZE + BLOCK_SIZE).min(len);
        match scan_forward(self.bits, &self.tree.tables, i + 1, end, r, tally) {
            Ok(position) => Some(position),
            Err(rise) => self.forward_past(i, r, rise, tally),
        }
    }

    // Does the same if the block of `i` has no such position and rises by `rise` to its end.
    #[inline(always)]
    fn forward_past(self, i: usize, r: i64, rise: i64, tally: &mut Tally) -> Option<usize> {
        let left = r.checked_sub(rise)?;
        let (next, rest) = self.tree.next_block_counted(i / BLOCK_SIZE, left, tally)?;
        let start = next * BLOCK_SIZE;
        let stop = (start + BLOCK_SIZE).min(self.bits.len());
        scan_forward(self.bits, &self.tree.tables, start, stop, rest, tally).ok()
    }

    // Returns the last position before `i` before which the excess is `r` more than before `i`. An adjacent
    // position is found by its bit.
    #[inline(always)]
    pub(super) fn backward(self, i: usize, r: i64, tally: &mut Tally) -> Option<usize> {
        if i == 0 || i >= self.bits.len() {
            return None;
        }
        if is_right_before(self.bits, i, r, tally) {
            return Some(i - 1);
        }
        let block = (i - 1) / BLOCK_SIZE;
        let begin = block * BLOCK_SIZE;
        match scan_backward(self.bits, &self.tree.tables, begin, i, r, tally) {
            Ok(position) => Some(position),
            Err(rise) => self.backward_past(i, r, rise, tally),
        }
    }

    // Does the same if the block of the position before `i` has no such position and is `rise` higher at its
    // start.
    #[inline(always)]
    fn backward_past(self, i: usize, r: i64, rise: i64, tally: &mut Tally) -> Option<usize> {
        let left = r.checked_sub(rise)?;
        let block = (i - 1) / BLOCK_SIZE;
        let (previous, rest) = self.tree.previous_block_counted(block, left, tally)?;
        let start = previous * BLOCK_SIZE;
        let end = start + BLOCK_SIZE;
        scan_backward(self.bits, &self.tree.tables, start, end, rest, tally).ok()
    }
}
