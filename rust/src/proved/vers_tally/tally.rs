//! Counters of reads, and the vectors whose entries are read only with one.

use crate::rattle::prelude::*;

use crate::rattle::Allocator;
use crate::rattle::lanes::*;
use crate::proved::vers_bits::bit_vec::{BitVec, MAX_LEN};

/// A count of the entries read of each kind. Contracts see a `Tally` as a record of nine numbers. No call
/// decreases a counter, and a counter that has reached its greatest value stays there. A counter is never
/// copied, so that each read is counted once.
pub struct Tally {
    data_words: u64,
    block_entries: u64,
    superblock_entries: u64,
    low_parts: u64,
    rank_calls: u64,
    items: u64,
    blocks: u64,
    nodes: u64,
    chunks: u64,
}

impl Tally {
    /// Returns a counter of no reads.
    #[inline]
    pub fn new() -> Tally {
        Tally {
            data_words: 0,
            block_entries: 0,
            superblock_entries: 0,
            low_parts: 0,
            rank_calls: 0,
            items: 0,
            blocks: 0,
            nodes: 0,
            chunks: 0,
        }
    }

    /// Returns the number of data words read: limbs of 64 bits of a list of bits.
    #[inline]
    pub fn data_words(&self) -> u64 {
        self.data_words
    }

    /// Returns the number of block entries read.
    #[inline]
    pub fn block_entries(&self) -> u64 {
        self.block_entries
    }

    /// Returns the number of superblock entries and select samples read.
    #[inline]
    pub fn superblock_entries(&self) -> u64 {
        self.superblock_entries
    }

    /// Returns the number of low parts of sorted numbers read.
    #[inline]
    pub fn low_parts(&self) -> u64 {
        self.low_parts
    }

    /// Returns the number of queries of lists of bits with rank and select.
    #[inline]
    pub fn rank_calls(&self) -> u64 {
        self.rank_calls
    }

    /// Returns the number of items of a list of numbers read.
    #[inline]
    pub fn items(&self) -> u64 {
        self.items
    }

    /// Returns the number of blocks in which a scan began.
    #[inline]
    pub fn blocks(&self) -> u64 {
        self.blocks
    }

    /// Returns the number of nodes of a tree of excesses read.
    #[inline]
    pub fn nodes(&self) -> u64 {
        self.nodes
    }

    /// Returns the number of chunks of bits loaded.
    #[inline]
    pub fn chunks(&self) -> u64 {
        self.chunks
    }

    /// Counts a query of a list of bits with rank and select.
    #[inline]
    pub fn add_rank_call(&mut self) {
        self.rank_calls = self.rank_calls.saturating_add(1);
    }

    /// Counts a block in which a scan begins.
    #[inline]
    pub fn add_block(&mut self) {
        self.blocks = self.blocks.saturating_add(1);
    }

    /// Counts a chunk of bits that is loaded.
    #[inline]
    pub fn add_chunk(&mut self) {
        self.chunks = self.chunks.saturating_add(1);
    }
}

/// Says that a whole list is read and nothing counted: for clones, equality, sizes and conversions.
#[derive(Clone, Copy)]
pub struct Uncounted;

/// A list of bits whose limbs and low parts are read only with a counter.
pub struct CountedBits<A: Allocator + Copy> {
    bits: BitVec<A>,
}

impl<A: Allocator + Copy> CountedBits<A> {
    /// Returns the same bits, counted from here on. Allocates nothing.
    #[inline]
    pub fn new(bits: BitVec<A>) -> Self {
        CountedBits { bits }
    }

    /// Returns the same bits, no longer counted. Allocates nothing.
    #[inline]
    pub fn into_bit_vec(self, _whole: Uncounted) -> BitVec<A> {
        let CountedBits { bits } = self;
        bits
    }

    /// Returns the whole list, for clones, conversions and equality.
    #[inline]
    pub fn as_bit_vec(&self, _whole: Uncounted) -> &BitVec<A> {
        &self.bits
    }

    /// Returns the number of bits. Reads nothing.
    #[inline]
    pub fn len(&self) -> usize {
        self.bits.len()
    }

    /// Returns limb `k`. Reads one data word. Precondition: limb `k` contains at least one bit of the list.
    #[inline]
    pub fn limb(&self, k: usize, tally: &mut Tally) -> u64 {
        tally.data_words = tally.data_words.saturating_add(1);
        self.bits.limb(k)
    }

    /// Returns block `k` of 8 limbs, from limb `8 * k`, with zeros past the length. Reads 8 data words, even if
    /// the caller uses fewer. `None`, and reads nothing, if the list has fewer limbs.
    #[inline(always)]
    pub fn block(&self, k: usize, tally: &mut Tally) -> Option<&[u64; 8]> {
        let block = self.bits.limb_block(k);
        // No branch, as in `get_bits`.
        let reads = 8 * u64::from(block.is_some());
        tally.data_words = tally.data_words.saturating_add(reads);
        block
    }

    /// Returns the bit at `position`, 1 or 0. Reads one data word. `None`, and reads nothing, if `position` is out of
    /// bounds.
    #[inline]
    pub fn get(&self, position: usize, tally: &mut Tally) -> Option<u64> {
        if position < self.bits.len() {
            tally.data_words = tally.data_words.saturating_add(1);
        }
        self.bits.get(position)
    }

    /// Returns true if the bit at `position` is a one. Reads one data word. Precondition: `position` is below the
    /// length.
    #[inline]
    pub fn is_one(&self, position: usize, tally: &mut Tally) -> bool {
        tally.data_words = tally.data_words.saturating_add(1);
        self.bits.is_bit_set(position).unwrap()
    }

    /// Returns the `n` bits from `position` on as a number. Reads two data words, the limb of the first bit
    /// and that of the last: bits of one limb are read from it twice, and both reads count. `None`, and reads
    /// nothing, if there are fewer bits, or `n` is 0 or above 64.
    #[inline(always)]
    pub fn get_bits(&self, position: usize, n: usize, tally: &mut Tally) -> Option<u64> {
        let number = self.bits.get_bits(position, n);
        // No branch: some of it would remain if the count is unused.
        let reads = 2 * u64::from(number.is_some());
        tally.data_words = tally.data_words.saturating_add(reads);
        number
    }

    /// Returns the `n` bits from `position` on as a number, 0 if `n` is 0. Reads one low part, however many
    /// limbs it spans, also if `n` is 0. Precondition: `n` is at most 64, and `position + n` at most the length.
    #[inline(always)]
    pub fn low_part(&self, position: usize, n: usize, tally: &mut Tally) -> u64 {
        tally.low_parts = tally.low_parts.saturating_add(1);
        self.bits.get_bits_unchecked(position, n)
    }
}

/// Entries of blocks, 2 bytes each, which are read only with a counter.
pub struct BlockEntries<A: Allocator + Copy> {
    entries: Vec<u16, A>,
}

impl<A: Allocator + Copy> BlockEntries<A> {
    /// Returns the same entries, counted from here on. Allocates nothing.
    #[inline]
    pub fn new(entries: Vec<u16, A>) -> Self {
        BlockEntries { entries }
    }

    /// Returns the number of entries. Reads nothing.
    #[inline]
    pub fn len(&self) -> usize {
        self.entries.len()
    }

    /// Returns all entries, for clones, conversions and equality.
    #[inline]
    pub fn as_slice(&self, _whole: Uncounted) -> &[u16] {
        self.entries.as_slice()
    }

    /// Returns entry `k`. Reads one block entry. Precondition: `k` is below the number of entries.
    #[inline]
    pub fn read(&self, k: usize, tally: &mut Tally) -> u16 {
        tally.block_entries = tally.block_entries.saturating_add(1);
        self.entries[k]
    }

    /// Returns the 16 entries from entry `k` on, as the lanes of a vector. Reads 16 block entries.
    /// Precondition: there are as many.
    #[inline(always)]
    pub fn read_16(&self, k: usize, tally: &mut Tally) -> u16x16 {
        tally.block_entries = tally.block_entries.saturating_add(16);
        u16x16::from_slice(&self.entries.as_slice()[k..k + 16])
    }
}

/// Entries of superblocks or select samples, 8 bytes each, which are read only with a counter.
pub struct SuperblockEntries<A: Allocator + Copy> {
    entries: Vec<u64, A>,
}

impl<A: Allocator + Copy> SuperblockEntries<A> {
    /// Returns the same entries, counted from here on. Allocates nothing.
    #[inline]
    pub fn new(entries: Vec<u64, A>) -> Self {
        SuperblockEntries { entries }
    }

    /// Returns the number of entries. Reads nothing.
    #[inline]
    pub fn len(&self) -> usize {
        self.entries.len()
    }

    /// Returns all entries, for clones, conversions and equality.
    #[inline]
    pub fn as_slice(&self, _whole: Uncounted) -> &[u64] {
        self.entries.as_slice()
    }

    /// Returns entry `k`. Reads one superblock entry. Precondition: `k` is below the number of entries.
    #[inline]
    pub fn read(&self, k: usize, tally: &mut Tally) -> u64 {
        tally.superblock_entries = tally.superblock_entries.saturating_add(1);
        self.entries[k]
    }
}

/// A list of numbers, which are read only with a counter.
pub struct CountedItems<A: Allocator + Copy> {
    numbers: Vec<u64, A>,
}

impl<A: Allocator + Copy> CountedItems<A> {
    /// Returns the same numbers, counted from here on. Allocates nothing.
    #[inline]
    pub fn new(numbers: Vec<u64, A>) -> Self {
        CountedItems { numbers }
    }

    /// Returns the number of numbers. Reads nothing.
    #[inline]
    pub fn len(&self) -> usize {
        self.numbers.len()
    }

    /// Returns the vector of all numbers, for callers that need a vector.
    #[inline]
    pub fn as_vec(&self, _whole: Uncounted) -> &Vec<u64, A> {
        &self.numbers
    }

    /// Returns all numbers, for clones, conversions and equality.
    #[inline]
    pub fn as_slice(&self, _whole: Uncounted) -> &[u64] {
        self.numbers.as_slice()
    }

    /// Returns number `k` of the list. Reads one item. Precondition: `k` is below the length.
    #[inline]
    pub fn read(&self, k: usize, tally: &mut Tally) -> u64 {
        tally.items = tally.items.saturating_add(1);
        self.numbers[k]
    }
}

/// The nodes of a tree, which are read only with a counter.
pub struct CountedNodes<N: Copy, A: Allocator + Copy> {
    entries: Vec<N, A>,
}

impl<N: Copy, A: Allocator + Copy> CountedNodes<N, A> {
    /// Returns the same nodes, counted from here on. Allocates nothing.
    #[inline]
    pub fn new(entries: Vec<N, A>) -> Self {
        CountedNodes { entries }
    }

    /// Returns the number of nodes. Reads nothing.
    #[inline]
    pub fn len(&self) -> usize {
        self.entries.len()
    }

    /// Returns all nodes, for clones.
    #[inline]
    pub fn as_slice(&self, _whole: Uncounted) -> &[N] {
        self.entries.as_slice()
    }

    /// Returns node `k`. Reads one node. Precondition: `k` is below the number of nodes.
    #[inline]
    pub fn read(&self, k: usize, tally: &mut Tally) -> N {
        tally.nodes = tally.nodes.saturating_add(1);
        self.entries[k]
    }
}
