//! The ends of a range as positions of a list.

use crate::rattle::prelude::*;

use std::ops::Bound;

// Returns the first position of a range that starts at the bound, among `n` positions.
#[inline(always)]
pub(super) fn start_position(start: Bound<usize>, n: usize) -> usize {
    let first = match start {
        Bound::Included(position) => position,
        Bound::Excluded(position) => position + 1,
        Bound::Unbounded => 0,
    };
    first.min(n - 1)
}

// Returns the last position of a range that ends at the bound, among `n` positions.
#[inline(always)]
pub(super) fn end_position(end: Bound<usize>, n: usize) -> usize {
    let last = match end {
        Bound::Included(position) => position,
        Bound::Excluded(position) => position - 1,
        Bound::Unbounded => n - 1,
    };
    last.min(n - 1)
}
