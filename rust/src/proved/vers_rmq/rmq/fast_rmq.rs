//! Range minima in few more bits than the items take.

use crate::rattle::prelude::*;

mod block;
mod mask;

use crate::proved::vers_rmq::rmq::binary_rmq::BinaryRmq;
use crate::proved::vers_rmq::rmq::bounds::{end_position, start_position};
use crate::proved::vers_rmq::rmq::fast_rmq::block::{BlockMasks, Blocks, all_blocks};
use crate::proved::vers_rmq::rmq::fast_rmq::mask::{first_set, last_set};
use crate::proved::vers_rmq::rmq::gather::gathered;
use crate::proved::vers_rmq::rmq::least::{PlacedItem, lesser_of, read_at, scan};
use crate::rattle::AllocError;
use crate::rattle::Allocator;
use std::ops::Bound;
use crate::proved::vers_bits::bit_vec::GrowError;
use crate::proved::vers_tally::tally::{CountedItems, Tally, Uncounted};

/// The number of items in a block; the last block may have fewer.
const BLOCK: usize = 128;

/// The number of items in a part of a block.
const PART: usize = 16;

/// The greatest length of a `FastRmq`.
pub const MAX_LEN: usize = 549755813760;

/// A list of numbers that finds the position of a least item of any range from few items. Contracts see a
/// `FastRmq` as the list of its items.
///
/// For each block of 128 items it stores the position of the least one in 1 byte, and four masks of 128 bits.
/// One mask marks the items that are below all before them in the block, and one those that no later item of
/// the block is below. So a mask gives the least item of each prefix and each suffix of a block. The other two
/// masks have the same for each part of 16 items. A `BinaryRmq` covers the least items of the blocks.
///
/// A range over more than one block is a suffix of one, whole blocks and a prefix of another. A range over more
/// than one part of a block is a suffix of one, whole parts and a prefix of another. In one part the masks give
/// the least item, or the items are read.
pub struct FastRmq<A: Allocator + Copy> {
    items: CountedItems<A>,
    minima: BinaryRmq<A>,
    positions: Vec<u8, A>,
    masks: Vec<BlockMasks, A>,
}

impl<A: Allocator + Copy> Clone for FastRmq<A> {
    /// Returns a copy of the items and the data of the blocks.
    fn clone(&self) -> Result<Self, AllocError> {
        let alloc = *self.positions.allocator();
        let items = Vec::from_slice(alloc, self.items.as_slice(Uncounted))?;
        let positions = Vec::from_slice(alloc, self.positions.as_slice())?;
        let masks = Vec::from_slice(alloc, self.masks.as_slice())?;
        let minima = self.minima.clone()?;
        Ok(FastRmq {
            items: CountedItems::new(items),
            minima,
            positions,
            masks,
        })
    }
}

impl<A: Allocator + Copy> FastRmq<A> {
    /// Returns the items with the data of their blocks. Precondition: there are at most `MAX_LEN`. Errors:
    /// `AllocError` if the allocator refuses a request; the items are then dropped.
    pub fn from_vec(items: Vec<u64, A>) -> Result<Self, AllocError> {
        let alloc = *items.allocator();
        let Blocks {
            minima,
            positions,
            masks,
        } = all_blocks(items.as_slice(), alloc)?;
        let minima = BinaryRmq::from_vec(minima)?;
        Ok(FastRmq {
            items: CountedItems::new(items),
            minima,
            positions,
            masks,
        })
    }

    /// Returns the items of a finite iterator with the data of their blocks.
    ///
    /// # Errors
    ///
    /// `TooLong` at the item that would exceed `MAX_LEN`, which is tested before its allocation; `Memory` if
    /// the allocator refuses a request.
    pub fn from_iter<I: Iterator<Item = u64>>(alloc: A, items: I) -> Result<Self, GrowError> {
        let list = gathered(alloc, items, MAX_LEN)?;
        Ok(FastRmq::from_vec(list)?)
    }

    /// Returns the number of items.
    #[inline]
    pub fn len(&self) -> usize {
        self.items.len()
    }

    /// Returns true if there are no items.
    #[inline]
    pub fn is_empty(&self) -> bool {
        self.len() == 0
    }

    /// Returns the vector of all items, for callers that need a vector.
    #[inline]
    pub fn items(&self, whole: Uncounted) -> &Vec<u64, A> {
        self.items.as_vec(whole)
    }

    /// Returns all items.
    #[inline]
    pub fn as_slice(&self) -> &[u64] {
        self.items.as_slice(Uncounted)
    }

    /// Returns a copy of the allocator.
    #[inline]
    pub fn allocator(&self) -> A {
        *self.positions.allocator()
    }

    /// Returns the number of bytes that the items and the data of the blocks take.
    pub fn heap_size(&self) -> usize {
        let kept = self.positions.len() + 64 * self.masks.len();
        8 * self.items.len() + self.minima.heap_size() + kept
    }

    // Returns the first position of a least item from the start of the block of `j` to `j`.
    #[inline(always)]
    fn prefix_position(&self, j: usize) -> usize {
        BLOCK * (j / BLOCK) + last_set(self.masks[j / BLOCK].whole.prefixes, j % BLOCK)
    }

    // Returns the first position of a least item from `i` to the end of its block.
    #[inline(always)]
    fn suffix_position(&self, i: usize) -> usize {
        BLOCK * (i / BLOCK) + first_set(self.masks[i / BLOCK].whole.suffixes, i % BLOCK)
    }

    // Returns the first position of a least item from the start of the part of `j` to `j`.
    #[inline(always)]
    fn part_prefix_position(&self, j: usize) -> usize {
        BLOCK * (j / BLOCK) + last_set(self.masks[j / BLOCK].parts.prefixes, j % BLOCK)
    }

    // Returns the first position of a least item from `i` to the end of its part.
    #[inline(always)]
    fn part_suffix_position(&self, i: usize) -> usize {
        BLOCK * (i / BLOCK) + first_set(self.masks[i / BLOCK].parts.suffixes, i % BLOCK)
    }

    // Returns the first least item of the whole blocks from `a` to `c`.
    #[inline(always)]
    fn between(&self, a: usize, c: usize, tally: &mut Tally) -> PlacedItem {
        let _ = self.items.len();
        let least = self.minima.range_min_item_counted(a, c, tally);
        PlacedItem {
            position: BLOCK * least.position + self.positions[least.position] as usize,
            value: least.value,
        }
    }

    // Returns the first position of a least item of a range in one part: by its masks, or by reading its items.
    #[inline(always)]
    fn least_in_part(&self, i: usize, j: usize, tally: &mut Tally) -> usize {
        let last = self.part_prefix_position(j);
        if i <= last {
            return last;
        }
        let first = self.part_suffix_position(i);
        if first <= j {
            return first;
        }
        scan(&self.items, i, j, tally).position
    }

    // Returns the first position of a least item of a range over parts of one block: by the masks of the block,
    // or by reading the least items of the suffix of a part, of whole parts and of the prefix of a part.
    #[inline(always)]
    fn least_in_block(&self, i: usize, j: usize, tally: &mut Tally) -> usize {
        let last = self.prefix_position(j);
        if i <= last {
            return last;
        }
        let first = self.suffix_position(i);
        if first <= j {
            return first;
        }
        let mut least = read_at(&self.items, self.part_suffix_position(i), tally);
        for part in i / PART + 1..j / PART {
            let here = read_at(
                &self.items,
                self.part_prefix_position(PART * part + (PART - 1)),
                tally,
            );
            least = lesser_of(least, here);
        }
        let here = read_at(&self.items, self.part_prefix_position(j), tally);
        lesser_of(least, here).position
    }

    // Returns the least item of block `b`. Reads one item.
    #[inline(always)]
    fn least_of_block(&self, b: usize, tally: &mut Tally) -> u64 {
        let _ = self.items.len();
        self.minima.item_counted(b, tally)
    }

    // Returns the first least item from `i` on, if `after` is that from the start of the next block on. Reads
    // no item of the block of `i` if its least one is above `after`.
    #[inline(always)]
    fn least_from(&self, i: usize, after: PlacedItem, tally: &mut Tally) -> PlacedItem {
        let least = self.least_of_block(i / BLOCK, tally);
        if after.value < least {
            return after;
        }
        lesser_of(read_at(&self.items, self.suffix_position(i), tally), after)
    }

    // Returns the first least item up to `j`, if `before` is that up to the end of the previous block. Reads no
    // item of the block of `j` if its least one isn't below `before`.
    #[inline(always)]
    fn least_up_to(&self, before: PlacedItem, j: usize, tally: &mut Tally) -> PlacedItem {
        let least = self.least_of_block(j / BLOCK, tally);
        if before.value <= least {
            return before;
        }
        lesser_of(before, read_at(&self.items, self.prefix_position(j), tally))
    }

    // Returns the first position of a least item of a range over blocks, by the least items of whole blocks,
    // and by reading the least items of the suffix of a block and of the prefix of a block if they can be less.
    #[inline(always)]
    fn least_over_blocks(&self, i: usize, j: usize, tally: &mut Tally) -> usize {
        if i / BLOCK + 1 == j / BLOCK {
            let first = read_at(&self.items, self.suffix_position(i), tally);
            let last = read_at(&self.items, self.prefix_position(j), tally);
            return lesser_of(first, last).position;
        }
        let middle = self.between(i / BLOCK + 1, j / BLOCK - 1, tally);
        let from = self.least_from(i, middle, tally);
        self.least_up_to(from, j, tally).position
    }

    /// Returns `range_min(i, j)`. Reads at most 6 items over more than one block, 8 over parts of one block, and 16 in
    /// one part; the contract allows 18.
    #[inline(always)]
    pub fn range_min_counted(&self, i: usize, j: usize, tally: &mut Tally) -> usize {
        if i / PART == j / PART {
            return self.least_in_part(i, j, tally);
        }
        if i / BLOCK == j / BLOCK {
            return self.least_in_block(i, j, tally);
        }
        self.least_over_blocks(i, j, tally)
    }

    /// Returns the first position of a least item from position `i` to position `j`, both included.
    /// Precondition: `i` is at most `j`, which is below the length.
    #[inline(always)]
    pub fn range_min(&self, i: usize, j: usize) -> usize {
        let mut tally = Tally::new();
        self.range_min_counted(i, j, &mut tally)
    }

    /// Returns `range_min_with_range(start, end)`. Reads as many items as `range_min_counted` at most.
    #[inline(always)]
    pub fn range_min_with_range_counted(
        &self,
        start: Bound<usize>,
        end: Bound<usize>,
        tally: &mut Tally,
    ) -> usize {
        let n = self.len();
        self.range_min_counted(start_position(start, n), end_position(end, n), tally)
    }

    /// Returns the first position of a least item in a range whose ends are clamped to the positions of the
    /// list: an unbounded start is 0, an unbounded end the last position.
    ///
    /// Precondition: there is at least one item, an excluded start isn't `usize::MAX`, an excluded end isn't 0,
    /// and the start, clamped so, is at most the end.
    #[inline]
    pub fn range_min_with_range(&self, start: Bound<usize>, end: Bound<usize>) -> usize {
        let mut tally = Tally::new();
        self.range_min_with_range_counted(start, end, &mut tally)
    }
}
