//! Select: the positions of zeros and ones, by superblock, block and limb.

use crate::rattle::prelude::*;

mod block;
mod limb;
mod superblock;

use super::{BLOCKS, LIMB, RsVec, SUPERBLOCK};
pub(crate) use limb::{InLimb, InWord};
use crate::rattle::Allocator;
use crate::proved::vers_tally::tally::Tally;

impl<A: Allocator + Copy> RsVec<A> {
    /// Returns the position of zero `r` (from 0), or the length if there are fewer.
    #[inline]
    pub fn select0(&self, r: usize) -> usize {
        let mut tally = Tally::new();
        self.select0_counted(r, &mut tally)
    }

    /// Returns the position of one `r` (from 0), or the length if there are fewer.
    #[inline]
    pub fn select1(&self, r: usize) -> usize {
        let mut tally = Tally::new();
        self.select1_counted(r, &mut tally)
    }

    /// Returns `select0(r)`. Reads at most 8 data words, 17 block entries, and 12 superblock entries plus one
    /// for each binary digit of the number of superblocks.
    #[inline(always)]
    pub fn select0_counted(&self, r: usize, tally: &mut Tally) -> usize {
        self.select_counted(false, r, tally)
    }

    /// Returns `select1(r)`. Reads at most 8 data words, 17 block entries, and 12 superblock entries plus one
    /// for each binary digit of the number of superblocks.
    #[inline(always)]
    pub fn select1_counted(&self, r: usize, tally: &mut Tally) -> usize {
        self.select_counted(true, r, tally)
    }

    /// Returns the position of occurrence `r` (from 0) of `bit`, or the length if there are fewer:
    /// `select0_counted` or `select1_counted`.
    #[inline(always)]
    pub fn select_counted(&self, bit: bool, r: usize, tally: &mut Tally) -> usize {
        tally.add_rank_call();
        self.position_of(bit, r, tally)
    }

    // Returns the position of zero or one `r`, or the length, as a part of a query.
    #[inline(always)]
    pub(super) fn position_of(&self, bit: bool, r: usize, tally: &mut Tally) -> usize {
        let len = self.len();
        if r >= self.total(bit) {
            return len;
        }
        let at = self.locate(bit, r, tally);
        LIMB * at.limb + at.position
    }

    // Returns the location of zero or one `r`.
    #[inline(always)]
    pub(super) fn locate(&self, bit: bool, r: usize, tally: &mut Tally) -> InWord {
        let _ = self.len();
        let s = self.superblock_with(bit, r, tally);
        let r_in_superblock = self.number_in(bit, r, s, tally);
        let at = if s < self.len() / SUPERBLOCK {
            self.limb_of(bit, r_in_superblock, s, true, tally)
        } else {
            self.limb_of(bit, r_in_superblock, s, false, tally)
        };
        self.position_in_limb(bit, at, tally)
    }

    // Returns the number within its superblock of number `r`.
    #[inline(always)]
    pub(super) fn number_in(&self, bit: bool, r: usize, s: usize, tally: &mut Tally) -> u16 {
        let _ = self.len();
        (r - self.count_at_superblock(bit, s, tally)) as u16
    }

    // Returns the limb of number `r` of a superblock. `is_whole` says that the superblock has all its bits.
    #[inline(always)]
    fn limb_of(&self, bit: bool, r: u16, s: usize, is_whole: bool, tally: &mut Tally) -> InLimb {
        let _ = self.len();
        let found = self.block_with(bit, r, s, is_whole, tally);
        let block = BLOCKS * s + found.block as usize;
        self.limb_in_block(bit, found.rest as usize, block, is_whole, tally)
    }

    // Returns the number of positions that have the bit.
    #[inline(always)]
    pub(super) fn total(&self, bit: bool) -> usize {
        if bit { self.ones() } else { self.zeros() }
    }
}
