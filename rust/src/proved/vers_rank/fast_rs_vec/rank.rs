//! Rank: the number of zeros or ones below a position.

use crate::rattle::prelude::*;

use super::{BLOCK, BLOCKS, LIMB, RsVec};
use crate::rattle::Allocator;
use crate::proved::vers_tally::tally::Tally;

// The least number of bits of a list that is taken to be larger than the processor's caches.
const LARGE: usize = 33_554_432;

/// The bit at a position, and the number of zeros below it.
#[derive(Clone, Copy)]
pub struct RankedBit {
    /// The number of zeros below the position.
    pub zeros: usize,
    /// True if the bit is a one.
    pub is_one: bool,
}

impl<A: Allocator + Copy> RsVec<A> {
    /// Returns the number of zeros below `position`; all zeros if `position` is past the end.
    #[inline]
    pub fn rank0(&self, position: usize) -> usize {
        let mut tally = Tally::new();
        self.rank0_counted(position, &mut tally)
    }

    /// Returns the number of ones below `position`; all ones if `position` is past the end.
    #[inline]
    pub fn rank1(&self, position: usize) -> usize {
        let mut tally = Tally::new();
        self.rank1_counted(position, &mut tally)
    }

    /// Returns `rank0(position)`. Reads at most 8 data words, one block entry and one superblock entry.
    #[inline(always)]
    pub fn rank0_counted(&self, position: usize, tally: &mut Tally) -> usize {
        tally.add_rank_call();
        if let Some(limbs) = self.bits.block(position / BLOCK, tally) {
            let ones = self.ones_of_block(limbs, position);
            return position.min(self.len()) - self.ones_below(ones, position, tally);
        }
        if position >= self.len() {
            return self.zeros();
        }
        position - self.ones_below_in_last(position, tally)
    }

    /// Returns `rank1(position)`. Reads at most 8 data words, one block entry and one superblock entry.
    #[inline(always)]
    pub fn rank1_counted(&self, position: usize, tally: &mut Tally) -> usize {
        tally.add_rank_call();
        if let Some(limbs) = self.bits.block(position / BLOCK, tally) {
            let ones = self.ones_of_block(limbs, position);
            return self.ones_below(ones, position, tally);
        }
        if position >= self.len() {
            return self.ones();
        }
        self.ones_below_in_last(position, tally)
    }

    /// Returns the number of zeros below `position`, and the bit there. Precondition: `position` is below the length.
    #[inline]
    pub fn rank0_with_bit(&self, position: usize) -> RankedBit {
        let mut tally = Tally::new();
        self.rank0_with_bit_counted(position, &mut tally)
    }

    /// Returns `rank0_with_bit(position)`. Reads at most 9 data words, one block entry and one superblock entry.
    #[inline(always)]
    pub fn rank0_with_bit_counted(&self, position: usize, tally: &mut Tally) -> RankedBit {
        tally.add_rank_call();
        if let Some(limbs) = self.bits.block(position / BLOCK, tally) {
            let ones = self.ones_in_block(limbs, position);
            return RankedBit {
                zeros: position - self.ones_below(ones, position, tally),
                is_one: limbs[position / LIMB % 8] >> (position % LIMB) & 1 == 1,
            };
        }
        RankedBit {
            zeros: position - self.ones_below_in_last(position, tally),
            is_one: self.bits.is_one(position, tally),
        }
    }

    // Returns the number of ones below a position, by those of its block before it.
    #[inline(always)]
    fn ones_below(&self, ones: usize, position: usize, tally: &mut Tally) -> usize {
        let block = position / BLOCK;
        let zeros = self.zeros_before(block, tally);
        BLOCK * block - zeros + ones
    }

    // Returns the number of ones below a position in the last block, which may not have all its limbs.
    #[inline(always)]
    fn ones_below_in_last(&self, position: usize, tally: &mut Tally) -> usize {
        let block = position / BLOCK;
        let ones = self.ones_up_to(block, position, tally);
        BLOCK * block - self.zeros_before(block, tally) + ones
    }

    // Returns the number of zeros before a block.
    #[inline(always)]
    pub(super) fn zeros_before(&self, block: usize, tally: &mut Tally) -> usize {
        self.blocks.read(block, tally) as usize
            + self.superblocks.read(block / BLOCKS, tally) as usize
    }

    // Returns the number of ones from the start of a block up to a position in it: up to its half, its quarter
    // there, its limb there, and in that limb. Limbs past the position, which the last block may not have, are
    // not read.
    #[inline(always)]
    fn ones_up_to(&self, block: usize, position: usize, tally: &mut Tally) -> usize {
        let half = self.ones_up_to_half(block, position, tally);
        let quarter = self.ones_up_to_quarter(position, tally);
        let limb = self.ones_up_to_limb(position, tally);
        half + quarter + limb + self.ones_of_rest(position, tally)
    }

    // Returns the number of ones from the start of a block up to the position's half of it.
    #[inline(always)]
    fn ones_up_to_half(&self, block: usize, position: usize, tally: &mut Tally) -> usize {
        if position / 256 % 2 == 0 {
            return 0;
        }
        self.ones_of_two(8 * block, tally) + self.ones_of_two(8 * block + 2, tally)
    }

    // Returns the number of ones from the start of the position's half of a block up to its quarter.
    #[inline(always)]
    fn ones_up_to_quarter(&self, position: usize, tally: &mut Tally) -> usize {
        if position / 128 % 2 == 0 {
            return 0;
        }
        self.ones_of_two(position / 256 * 4, tally)
    }

    // Returns the number of ones from the start of the position's quarter of a block up to its limb.
    #[inline(always)]
    fn ones_up_to_limb(&self, position: usize, tally: &mut Tally) -> usize {
        if position / LIMB % 2 == 0 {
            return 0;
        }
        self.ones_of_whole(position / 128 * 2, tally)
    }

    // Reads two limbs and returns their number of ones.
    #[inline(always)]
    pub(super) fn ones_of_two(&self, k: usize, tally: &mut Tally) -> usize {
        self.ones_of_whole(k + 1, tally) + self.ones_of_whole(k, tally)
    }

    // Reads a limb and returns its number of ones.
    #[inline(always)]
    pub(super) fn ones_of_whole(&self, k: usize, tally: &mut Tally) -> usize {
        self.bits.limb(k, tally).count_ones() as usize
    }

    // Reads the position's limb and returns its number of ones below the position.
    #[inline(always)]
    fn ones_of_rest(&self, position: usize, tally: &mut Tally) -> usize {
        ones_of_part(self.bits.limb(position / LIMB, tally), position)
    }

    // Returns the number of ones from the start of a block up to a position in it. Beyond the processor's caches ranks
    // wait for memory, and the fewer instructions one takes, the more of them wait together.
    #[inline(always)]
    fn ones_of_block(&self, limbs: &[u64; 8], position: usize) -> usize {
        if self.len() < LARGE {
            self.ones_in_block(limbs, position)
        } else {
            self.ones_by_limbs(limbs, position)
        }
    }

    // Returns the number of ones from the start of a block up to a position in it, limb by limb.
    #[inline(always)]
    fn ones_by_limbs(&self, limbs: &[u64; 8], position: usize) -> usize {
        let block = position / BLOCK;
        let mut ones = 0;
        for k in 8 * block..position / LIMB {
            ones += self.ones_of_limb(limbs, block, k);
        }
        ones + ones_of_part(limbs[position / LIMB % 8], position)
    }

    // Returns the number of ones from the start of a block up to a position in it: up to its half, its quarter
    // there, its limb there, and in that limb. Every limb that is examined is masked out of the sum unless the
    // position is past it, with no branch on the position, which would be mispredicted. None is in a half past
    // the position's own, which may be in another cache line.
    #[inline(always)]
    fn ones_in_block(&self, limbs: &[u64; 8], position: usize) -> usize {
        let half = self.ones_before_half(limbs, position);
        let quarter = self.ones_before_quarter(limbs, position);
        let limb = self.ones_before_limb(limbs, position);
        half + quarter + limb + ones_of_part(limbs[position / LIMB % 8], position)
    }

    // Returns the number of ones from the start of a block up to the position's half of it.
    #[inline(always)]
    fn ones_before_half(&self, limbs: &[u64; 8], position: usize) -> usize {
        let block = position / BLOCK;
        let two = self.ones_of_pair(limbs, block, 8 * block);
        let four = two + self.ones_of_pair(limbs, block, 8 * block + 2);
        if position / 256 % 2 == 1 { four } else { 0 }
    }

    // Returns the number of ones from the start of the position's half of a block up to its quarter.
    #[inline(always)]
    fn ones_before_quarter(&self, limbs: &[u64; 8], position: usize) -> usize {
        let two = self.ones_of_pair(limbs, position / BLOCK, position / 256 * 4);
        if position / 128 % 2 == 1 { two } else { 0 }
    }

    // Returns the number of ones from the start of the position's quarter of a block up to its limb.
    #[inline(always)]
    fn ones_before_limb(&self, limbs: &[u64; 8], position: usize) -> usize {
        let first = self.ones_of_limb(limbs, position / BLOCK, position / 128 * 2);
        if position / 64 % 2 == 1 { first } else { 0 }
    }

    // Returns the number of ones in two limbs of a block.
    #[inline(always)]
    fn ones_of_pair(&self, limbs: &[u64; 8], block: usize, k: usize) -> usize {
        self.ones_of_limb(limbs, block, k) + self.ones_of_limb(limbs, block, k + 1)
    }

    // Returns the number of ones in a limb of a block.
    #[inline(always)]
    fn ones_of_limb(&self, limbs: &[u64; 8], block: usize, k: usize) -> usize {
        limbs[k % 8].count_ones() as usize
    }
}

// Returns the number of ones in a limb below a position in it.
#[inline(always)]
fn ones_of_part(limb: u64, position: usize) -> usize {
    (limb & ((1 << (position % LIMB)) - 1)).count_ones() as usize
}
