//! Range minima from two items read.

use crate::rattle::prelude::*;

mod table;

use crate::proved::vers_rmq::rmq::binary_rmq::table::{log2, positions, width};
use crate::proved::vers_rmq::rmq::bounds::{end_position, start_position};
use crate::proved::vers_rmq::rmq::gather::gathered;
pub use crate::proved::vers_rmq::rmq::least::PlacedItem;
use crate::proved::vers_rmq::rmq::least::{lesser_of, read_at};
use crate::rattle::AllocError;
use crate::rattle::Allocator;
use std::ops::Bound;
use crate::proved::vers_bits::bit_vec::GrowError;
use crate::proved::vers_tally::tally::{CountedItems, Tally, Uncounted};

/// The greatest length of a `BinaryRmq`.
pub const MAX_LEN: usize = 4294967295;

/// A list of numbers with a table that gives the position of a least item of any range from two items.
/// Contracts see a `BinaryRmq` as the list of its items.
///
/// The table, which is the sparse table of Bender and Farach-Colton, stores for each position and each power of
/// two up to the first that is at least the number of items the position of the least of that many items from
/// there on, in 4 bytes. Two such ranges, which may overlap, cover a range.
pub struct BinaryRmq<A: Allocator + Copy> {
    items: CountedItems<A>,
    table: Vec<u32, A>,
}

impl<A: Allocator + Copy> Clone for BinaryRmq<A> {
    /// Returns a copy of the items and the table.
    fn clone(&self) -> Result<Self, AllocError> {
        let alloc = *self.table.allocator();
        let items = Vec::from_slice(alloc, self.items.as_slice(Uncounted))?;
        let table = Vec::from_slice(alloc, self.table.as_slice())?;
        Ok(BinaryRmq {
            items: CountedItems::new(items),
            table,
        })
    }
}

impl<A: Allocator + Copy> BinaryRmq<A> {
    /// Returns the items with their table. Precondition: there are at most `MAX_LEN`. Errors: `AllocError` if
    /// the allocator refuses a request; the items are then dropped.
    pub fn from_vec(items: Vec<u64, A>) -> Result<Self, AllocError> {
        let alloc = *items.allocator();
        let table = positions(items.as_slice(), alloc)?;
        Ok(BinaryRmq {
            items: CountedItems::new(items),
            table,
        })
    }

    /// Returns the items of a finite iterator with their table.
    ///
    /// # Errors
    ///
    /// `TooLong` at the item that would exceed `MAX_LEN`, which is tested before its allocation; `Memory` if
    /// the allocator refuses a request.
    pub fn from_iter<I: Iterator<Item = u64>>(alloc: A, items: I) -> Result<Self, GrowError> {
        let list = gathered(alloc, items, MAX_LEN)?;
        Ok(BinaryRmq::from_vec(list)?)
    }

    /// Returns the number of items.
    #[inline]
    pub fn len(&self) -> usize {
        self.items.len()
    }

    /// Returns true if there are no items.
    #[inline]
    pub fn is_empty(&self) -> bool {
        self.len() == 0
    }

    /// Returns the vector of all items, for callers that need a vector.
    #[inline]
    pub fn items(&self, whole: Uncounted) -> &Vec<u64, A> {
        self.items.as_vec(whole)
    }

    /// Returns all items.
    #[inline]
    pub fn as_slice(&self) -> &[u64] {
        self.items.as_slice(Uncounted)
    }

    /// Returns the number of bytes that the items and the table take.
    pub fn heap_size(&self) -> usize {
        8 * self.items.len() + 4 * self.table.len()
    }

    // Returns the entry of level `k` for the range from `i` on.
    #[inline(always)]
    fn entry(&self, k: usize, i: usize) -> usize {
        self.table[self.items.len() * k + i] as usize
    }

    /// Returns the item at `position`. Precondition: `position` is below the length.
    #[inline]
    pub fn item(&self, position: usize) -> u64 {
        let mut tally = Tally::new();
        self.item_counted(position, &mut tally)
    }

    /// Returns `item(position)`. Reads one item.
    #[inline(always)]
    pub fn item_counted(&self, position: usize, tally: &mut Tally) -> u64 {
        self.items.read(position, tally)
    }

    /// Returns the first least item from position `i` to position `j`, both included, with its position.
    /// Precondition: `i` is at most `j`, which is below the length.
    #[inline]
    pub fn range_min_item(&self, i: usize, j: usize) -> PlacedItem {
        let mut tally = Tally::new();
        self.range_min_item_counted(i, j, &mut tally)
    }

    /// Returns `range_min_item(i, j)`. Reads at most 2 items.
    #[inline(always)]
    pub fn range_min_item_counted(&self, i: usize, j: usize, tally: &mut Tally) -> PlacedItem {
        let _ = &self.items;
        let k = log2(j - i + 1);
        let left = read_at(&self.items, self.entry(k, i), tally);
        let right = read_at(&self.items, self.entry(k, j + 1 - width(k)), tally);
        lesser_of(left, right)
    }

    /// Returns `range_min(i, j)`. Reads at most 2 items.
    #[inline(always)]
    pub fn range_min_counted(&self, i: usize, j: usize, tally: &mut Tally) -> usize {
        self.range_min_item_counted(i, j, tally).position
    }

    /// Returns the first position of a least item from position `i` to position `j`, both included.
    /// Precondition: `i` is at most `j`, which is below the length.
    #[inline]
    pub fn range_min(&self, i: usize, j: usize) -> usize {
        let mut tally = Tally::new();
        self.range_min_counted(i, j, &mut tally)
    }

    /// Returns `range_min_with_range(start, end)`. Reads at most 2 items.
    #[inline(always)]
    pub fn range_min_with_range_counted(
        &self,
        start: Bound<usize>,
        end: Bound<usize>,
        tally: &mut Tally,
    ) -> usize {
        let n = self.len();
        self.range_min_counted(start_position(start, n), end_position(end, n), tally)
    }

    /// Returns the first position of a least item in a range whose ends are clamped to the positions of the
    /// list: an unbounded start is 0, an unbounded end the last position.
    ///
    /// Precondition: there is at least one item, an excluded start isn't `usize::MAX`, an excluded end isn't 0,
    /// and the start, clamped so, is at most the end.
    #[inline]
    pub fn range_min_with_range(&self, start: Bound<usize>, end: Bound<usize>) -> usize {
        let mut tally = Tally::new();
        self.range_min_with_range_counted(start, end, &mut tally)
    }
}
