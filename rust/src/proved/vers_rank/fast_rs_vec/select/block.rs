//! The block of an occurrence in its superblock.

use crate::rattle::prelude::*;

use crate::proved::vers_rank::fast_rs_vec::{BLOCK, BLOCKS, RsVec, SUPERBLOCK};
use crate::proved::vers_rank::lanes::{FAR_BELOW, FoundBlock, last_up_to};
use crate::rattle::Allocator;
use crate::proved::vers_tally::tally::Tally;

impl<A: Allocator + Copy> RsVec<A> {
    // Returns the number of positions of a superblock before its block `j` that have the bit.
    #[inline(always)]
    fn count_in_superblock(&self, bit: bool, s: usize, j: u16, tally: &mut Tally) -> u16 {
        let _ = &self.bits;
        let zeros = self.blocks.read(BLOCKS * s + j as usize, tally);
        if bit { BLOCK as u16 * j - zeros } else { zeros }
    }

    // Returns the number of positions before a block that have the bit, or of all such positions if the list
    // ends before it.
    #[inline(always)]
    pub(crate) fn count_at_block(&self, bit: bool, block: usize, tally: &mut Tally) -> usize {
        if block >= self.blocks.len() {
            return self.total(bit);
        }
        let zeros = self.zeros_before(block, tally);
        if bit { BLOCK * block - zeros } else { zeros }
    }

    // Returns the block of number `r` of a superblock.
    #[inline(always)]
    pub(crate) fn block_with(
        &self,
        bit: bool,
        r: u16,
        s: usize,
        is_whole: bool,
        tally: &mut Tally,
    ) -> FoundBlock {
        if is_whole {
            return self.block_among(bit, r, s, tally);
        }
        let blocks = self.blocks.len() - BLOCKS * s;
        self.block_up_to(bit, r, s, blocks as u16, tally)
    }

    // Returns the block of number `r` among the 16 of a superblock, or the last of them: all their entries are
    // read and compared at once, by lanes.
    #[inline(always)]
    fn block_among(&self, bit: bool, r: u16, s: usize, tally: &mut Tally) -> FoundBlock {
        let _ = &self.bits;
        let zeros = self.blocks.read_16(BLOCKS * s, tally);
        last_up_to(zeros, bit, r)
    }

    // Returns the block of number `r` among the first `n` of a superblock, or the last of them: one after the
    // other, up to the first whose entry passes `r`.
    #[inline(always)]
    fn block_up_to(&self, bit: bool, r: u16, s: usize, n: u16, tally: &mut Tally) -> FoundBlock {
        let mut rest = r;
        for j in 1..n {
            let below = r.wrapping_sub(self.count_in_superblock(bit, s, j, tally));
            if below >= FAR_BELOW {
                return FoundBlock { block: j - 1, rest };
            }
            rest = below;
        }
        FoundBlock { block: n - 1, rest }
    }
}
