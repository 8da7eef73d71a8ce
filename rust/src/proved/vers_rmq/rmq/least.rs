//! The choice between items, and the least of a few.

use crate::rattle::prelude::*;

use crate::rattle::Allocator;
use crate::proved::vers_tally::tally::{CountedItems, Tally};

/// An item of a list, with its position.
#[derive(Clone, Copy)]
pub struct PlacedItem {
    /// The position.
    pub position: usize,
    /// The item.
    pub value: u64,
}

// Returns the lesser of two items, the first if they are equal.
#[inline(always)]
pub(super) fn lesser_of(first: PlacedItem, second: PlacedItem) -> PlacedItem {
    if first.value <= second.value {
        first
    } else {
        second
    }
}

// Returns the one of two positions that has the lesser item, the first if they are equal.
pub(super) fn lesser_position(items: &[u64], m: usize, n: usize) -> usize {
    let first = PlacedItem {
        position: m,
        value: items[m],
    };
    let second = PlacedItem {
        position: n,
        value: items[n],
    };
    lesser_of(first, second).position
}

// Returns the item at a position. Reads one item.
#[inline(always)]
pub(super) fn read_at<A: Allocator + Copy>(
    items: &CountedItems<A>,
    position: usize,
    tally: &mut Tally,
) -> PlacedItem {
    let value = items.read(position, tally);
    PlacedItem { position, value }
}

// Returns the first least item from `i` to `j`. Reads each of them once.
#[inline(always)]
pub(super) fn scan<A: Allocator + Copy>(
    items: &CountedItems<A>,
    i: usize,
    j: usize,
    tally: &mut Tally,
) -> PlacedItem {
    let _ = items.len();
    let mut least = read_at(items, i, tally);
    for k in i + 1..j + 1 {
        let here = read_at(items, k, tally);
        least = lesser_of(least, here);
    }
    least
}
