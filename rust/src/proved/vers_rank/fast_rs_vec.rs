//! Lists of bits with rank and select.

use crate::rattle::prelude::*;

mod batch;
mod bit_set_iter;
mod equality;
mod iter;
mod neighbours;
mod pair;
mod rank;
mod reader;
mod select;
mod select_iter;

use crate::proved::vers_rank::build::{add_entries, samples};
pub use bit_set_iter::BitSetIter;
pub use iter::{RsVecIter, RsVecRefIter};
pub use pair::PositionPair;
pub use rank::RankedBit;
pub use select_iter::{Positions, SelectIntoIter, SelectIter};
use crate::rattle::AllocError;
use crate::rattle::Allocator;
use crate::proved::vers_bits::bit_vec::{BitVec, MAX_LEN};
use crate::proved::vers_tally::tally::{BlockEntries, CountedBits, SuperblockEntries, Tally, Uncounted};

/// The number of bits in a limb.
const LIMB: usize = 64;

/// The number of bits in a block.
pub(crate) const BLOCK: usize = 512;

/// The number of bits in a superblock, and of ones or zeros between two select samples.
pub(crate) const SUPERBLOCK: usize = 8192;

/// The number of blocks in a superblock.
pub(crate) const BLOCKS: usize = SUPERBLOCK / BLOCK;

/// A list of bits with rank and select. Contracts see it as the list of its bits.
///
/// In addition to the bits it stores 2 bytes per block of 512 bits (the zeros of its superblock before it), 8
/// bytes per superblock of 8192 bits (the zeros before it), and samples: for every 8192nd one and every 8192nd
/// zero, its superblock.
///
/// Each query has a form `_counted`, which counts its reads in a `Tally`; the plain form passes a counter of
/// its own.
pub struct RsVec<A: Allocator + Copy> {
    bits: CountedBits<A>,
    blocks: BlockEntries<A>,
    superblocks: SuperblockEntries<A>,
    zero_samples: SuperblockEntries<A>,
    one_samples: SuperblockEntries<A>,
    zeros: usize,
}

impl<A: Allocator + Copy> Clone for RsVec<A> {
    /// Returns a copy of the list and its index.
    fn clone(&self) -> Result<Self, AllocError> {
        let bits = self.bits.as_bit_vec(Uncounted).clone()?;
        let alloc = bits.allocator();
        let blocks = Vec::from_slice(alloc, self.blocks.as_slice(Uncounted))?;
        let superblocks = Vec::from_slice(alloc, self.superblocks.as_slice(Uncounted))?;
        let zero_samples = Vec::from_slice(alloc, self.zero_samples.as_slice(Uncounted))?;
        let one_samples = Vec::from_slice(alloc, self.one_samples.as_slice(Uncounted))?;
        Ok(RsVec {
            bits: CountedBits::new(bits),
            blocks: BlockEntries::new(blocks),
            superblocks: SuperblockEntries::new(superblocks),
            zero_samples: SuperblockEntries::new(zero_samples),
            one_samples: SuperblockEntries::new(one_samples),
            zeros: self.zeros,
        })
    }
}

impl<A: Allocator + Copy> RsVec<A> {
    /// Returns the same bits, with rank and select. Errors: `AllocError` only if the allocator refuses a
    /// request; the list is then dropped.
    pub fn from_bit_vec(bits: BitVec<A>) -> Result<Self, AllocError> {
        let alloc = bits.allocator();
        let mut blocks = Vec::new(alloc);
        let mut superblocks = Vec::new(alloc);
        let zeros = add_entries(&bits, &mut blocks, &mut superblocks)?;
        let n = zeros.max(bits.len() - zeros) / SUPERBLOCK + 2;
        let zero_samples = samples(&bits, &superblocks, false, n)?;
        let one_samples = samples(&bits, &superblocks, true, n)?;
        Ok(RsVec {
            bits: CountedBits::new(bits),
            blocks: BlockEntries::new(blocks),
            superblocks: SuperblockEntries::new(superblocks),
            zero_samples: SuperblockEntries::new(zero_samples),
            one_samples: SuperblockEntries::new(one_samples),
            zeros,
        })
    }

    /// Returns the bits without the index. Allocates nothing.
    pub fn into_bit_vec(self) -> BitVec<A> {
        self.bits.into_bit_vec(Uncounted)
    }

    /// Returns the number of bits.
    #[inline]
    pub fn len(&self) -> usize {
        self.bits.len()
    }

    /// Returns true if the list is empty.
    #[inline]
    pub fn is_empty(&self) -> bool {
        self.len() == 0
    }

    /// Returns the number of zeros. Reads nothing.
    #[inline]
    pub fn zeros(&self) -> usize {
        self.zeros
    }

    /// Returns the number of ones. Reads nothing.
    #[inline]
    pub fn ones(&self) -> usize {
        self.bits.len() - self.zeros
    }

    /// Returns the number of bytes that the bits and their index take, in addition to the `RsVec` itself.
    pub fn heap_size(&self) -> usize {
        8 * self.bits.len().div_ceil(64)
            + 2 * self.blocks.len()
            + 8 * self.superblocks.len()
            + 8 * self.zero_samples.len()
            + 8 * self.one_samples.len()
    }

    /// Returns the bit at `position`, 1 or 0, or `None` if `position` is out of bounds.
    #[inline]
    pub fn get(&self, position: usize) -> Option<u64> {
        let mut tally = Tally::new();
        self.get_counted(position, &mut tally)
    }

    /// Returns `get(position)`. Reads at most one data word.
    #[inline(always)]
    pub fn get_counted(&self, position: usize, tally: &mut Tally) -> Option<u64> {
        tally.add_rank_call();
        self.bits.get(position, tally)
    }

    /// Returns the bit at `position`, 1 or 0. Precondition: `position` is below the length.
    #[inline]
    pub fn get_unchecked(&self, position: usize) -> u64 {
        let mut tally = Tally::new();
        u64::from(self.is_one_counted(position, &mut tally))
    }

    /// Returns true if the bit at `position` is a one. Reads one data word. Precondition: `position` is below the
    /// length.
    #[inline(always)]
    pub fn is_one_counted(&self, position: usize, tally: &mut Tally) -> bool {
        tally.add_rank_call();
        self.bits.is_one(position, tally)
    }

    /// Returns the `n` bits from `position` on as a number; 0 if `n` is 0. `None` if there are fewer, or `n`
    /// is above 64.
    #[inline]
    pub fn get_bits(&self, position: usize, n: usize) -> Option<u64> {
        let mut tally = Tally::new();
        self.get_bits_counted(position, n, &mut tally)
    }

    /// Returns `get_bits(position, n)`. Reads at most two data words.
    #[inline(always)]
    pub fn get_bits_counted(&self, position: usize, n: usize, tally: &mut Tally) -> Option<u64> {
        tally.add_rank_call();
        if n == 0 {
            return if position <= self.bits.len() {
                Some(0)
            } else {
                None
            };
        }
        self.bits.get_bits(position, n, tally)
    }

    /// Returns the `n` bits from `position` on as a number; 0 if `n` is 0. Precondition: `n` is at most 64,
    /// and `position + n` at most the length.
    #[inline]
    pub fn get_bits_unchecked(&self, position: usize, n: usize) -> u64 {
        let mut tally = Tally::new();
        self.get_bits_counted(position, n, &mut tally).unwrap()
    }
}

impl<A: Allocator + Copy> From<RsVec<A>> for BitVec<A> {
    /// Returns the bits without the index. Allocates nothing.
    fn from(indexed: RsVec<A>) -> Self {
        indexed.into_bit_vec()
    }
}
