//! Lists of bits with rank.

use crate::rattle::prelude::*;

use crate::proved::word_rank::build::add_counts;
use crate::rattle::AllocError;
use crate::rattle::Allocator;
use crate::proved::vers_bits::bit_vec::{BitVec, MAX_LEN};
use crate::proved::vers_tally::tally::{BlockEntries, CountedBits, SuperblockEntries, Tally, Uncounted};

/// The number of bits in a word.
pub(crate) const WORD: usize = 64;

/// The number of bits in a superblock.
pub(crate) const SUPERBLOCK: usize = 32_768;

/// The number of words in a superblock.
pub(crate) const WORDS: usize = SUPERBLOCK / WORD;

/// A bit, and the number of ones before it.
#[derive(Clone, Copy)]
pub struct BitAndRank {
    /// True if the bit is a one.
    pub is_one: bool,
    /// The number of ones before the bit.
    pub ones: usize,
}

/// A list of bits with rank, for queries that are mostly ranks. Contracts see it as the list of its bits.
///
/// In addition to the bits it stores 2 bytes per word of 64 bits (the ones of its superblock before it) and 8
/// bytes per superblock of 32,768 bits (the ones before it). A rank reads one word, its count and that of its
/// superblock, with no branch on the position.
///
/// Each query has a form `_counted`, which counts its reads in a `Tally`: words as data words, their counts as
/// block entries. The plain form passes a counter of its own.
pub struct WordRank<A: Allocator + Copy> {
    bits: CountedBits<A>,
    words: BlockEntries<A>,
    superblocks: SuperblockEntries<A>,
}

impl<A: Allocator + Copy> Clone for WordRank<A> {
    /// Returns a copy of the list and its counts.
    fn clone(&self) -> Result<Self, AllocError> {
        let bits = self.bits.as_bit_vec(Uncounted).clone()?;
        let alloc = bits.allocator();
        let words = Vec::from_slice(alloc, self.words.as_slice(Uncounted))?;
        let superblocks = Vec::from_slice(alloc, self.superblocks.as_slice(Uncounted))?;
        Ok(WordRank {
            bits: CountedBits::new(bits),
            words: BlockEntries::new(words),
            superblocks: SuperblockEntries::new(superblocks),
        })
    }
}

impl<A: Allocator + Copy> WordRank<A> {
    /// Returns the same bits, with rank. Errors: `AllocError` only if the allocator refuses a request; the list
    /// is then dropped.
    pub fn from_bit_vec(bits: BitVec<A>) -> Result<Self, AllocError> {
        let alloc = bits.allocator();
        let mut words = Vec::with_capacity(alloc, bits.len().div_ceil(WORD))?;
        let mut superblocks = Vec::with_capacity(alloc, bits.len().div_ceil(SUPERBLOCK))?;
        add_counts(&bits, &mut words, &mut superblocks)?;
        Ok(WordRank {
            bits: CountedBits::new(bits),
            words: BlockEntries::new(words),
            superblocks: SuperblockEntries::new(superblocks),
        })
    }

    /// Returns the bits without the counts.
    #[inline]
    pub fn bits(&self) -> &BitVec<A> {
        self.bits.as_bit_vec(Uncounted)
    }

    /// Returns the number of bits.
    #[inline]
    pub fn len(&self) -> usize {
        self.bits.len()
    }

    /// Returns true if the list is empty.
    #[inline]
    pub fn is_empty(&self) -> bool {
        self.len() == 0
    }

    /// Returns the number of bytes that the bits and their counts take, in addition to the `WordRank` itself.
    pub fn heap_size(&self) -> usize {
        8 * self.bits.len().div_ceil(WORD) + 2 * self.words.len() + 8 * self.superblocks.len()
    }

    /// Returns true if the bit at `position` is a one. Precondition: `position` is below the length.
    #[inline(always)]
    pub fn is_one(&self, position: usize) -> bool {
        let mut tally = Tally::new();
        self.is_one_counted(position, &mut tally)
    }

    /// Returns `is_one(position)`. Reads one data word. Precondition: `position` is below the length.
    #[inline(always)]
    pub fn is_one_counted(&self, position: usize, tally: &mut Tally) -> bool {
        self.bits.is_one(position, tally)
    }

    /// Returns the number of ones below `position`; all ones if `position` is past the end.
    #[inline(always)]
    pub fn rank1(&self, position: usize) -> usize {
        let mut tally = Tally::new();
        self.rank1_counted(position, &mut tally)
    }

    /// Returns `rank1(position)`. Reads at most one data word, one block entry and one superblock entry.
    #[inline(always)]
    pub fn rank1_counted(&self, position: usize, tally: &mut Tally) -> usize {
        let len = self.len();
        if len == 0 {
            return 0;
        }
        // Past the end the last bit counts too. No branch depends on the position.
        let last = len - 1;
        let below = self.get_and_rank1_counted(position.min(last), tally);
        below.ones + usize::from(below.is_one & (position > last))
    }

    /// Returns the bit at `position`, and the number of ones below `position`. Precondition: `position` is below the
    /// length.
    #[inline(always)]
    pub fn get_and_rank1(&self, position: usize) -> BitAndRank {
        let mut tally = Tally::new();
        self.get_and_rank1_counted(position, &mut tally)
    }

    /// Returns `get_and_rank1(position)`. Reads one data word, one block entry and one superblock entry.
    /// Precondition: `position` is below the length.
    #[inline(always)]
    pub fn get_and_rank1_counted(&self, position: usize, tally: &mut Tally) -> BitAndRank {
        let word = position / WORD;
        let limb = self.bits.limb(word, tally);
        BitAndRank {
            is_one: limb >> (position % WORD) & 1 == 1,
            ones: self.ones_before(word, tally) + ones_of_part(limb, position),
        }
    }

    // Returns the number of ones before a word.
    #[inline(always)]
    fn ones_before(&self, word: usize, tally: &mut Tally) -> usize {
        self.superblocks.read(word / WORDS, tally) as usize + self.words.read(word, tally) as usize
    }
}

// Returns the number of ones in a word below a position in it.
#[inline(always)]
fn ones_of_part(word: u64, position: usize) -> usize {
    (word & ((1 << (position % WORD)) - 1)).count_ones() as usize
}
