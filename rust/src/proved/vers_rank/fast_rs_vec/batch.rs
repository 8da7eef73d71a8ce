//! Select for many numbers at once.

use crate::rattle::prelude::*;

use super::select::InLimb;
use super::{BLOCK, BLOCKS, LIMB, RsVec, SUPERBLOCK};
use crate::rattle::Allocator;
use crate::proved::vers_tally::tally::Tally;

/// The numbers that pass all levels together: enough that the processor has their reads in flight at once, and
/// few enough that what they read stays in the cache.
const GROUP: usize = 64;

// A level of the search, which maps each number to one nearer to its position.
pub(super) trait Level {
    // Maps a number through the level.
    fn lead<A: Allocator + Copy>(
        bits: &RsVec<A>,
        bit: bool,
        number: usize,
        tally: &mut Tally,
    ) -> usize;
}

impl<A: Allocator + Copy> RsVec<A> {
    /// Replaces each `r` in `numbers` by `select0(r)`. Allocates nothing.
    pub fn select0_each(&self, numbers: &mut [usize]) {
        let mut tally = Tally::new();
        self.select0_each_counted(numbers, &mut tally)
    }

    /// Replaces each `r` in `numbers` by `select1(r)`. Allocates nothing.
    pub fn select1_each(&self, numbers: &mut [usize]) {
        let mut tally = Tally::new();
        self.select1_each_counted(numbers, &mut tally)
    }

    /// Replaces each `r` in `numbers` by `select0(r)`. Reads at most what as many calls of `select0` do.
    #[inline(always)]
    pub fn select0_each_counted(&self, numbers: &mut [usize], tally: &mut Tally) {
        self.select_each::<false>(numbers, tally)
    }

    /// Replaces each `r` in `numbers` by `select1(r)`. Reads at most what as many calls of `select1` do.
    #[inline(always)]
    pub fn select1_each_counted(&self, numbers: &mut [usize], tally: &mut Tally) {
        self.select_each::<true>(numbers, tally)
    }

    // Replaces each number by its position, group by group. The bit is a const parameter, so that the compiler
    // writes one search for ones and one for zeros, neither of which tests the bit.
    #[inline(always)]
    fn select_each<const BIT: bool>(&self, numbers: &mut [usize], tally: &mut Tally) {
        let len = numbers.len();
        let mut from = 0;
        while from < len {
            let n = GROUP.min(len - from);
            self.levels_each::<BIT>(numbers, from, n, tally);
            from += n;
        }
    }

    // Replaces each of `n` numbers by its position, all of them level by level.
    #[inline(always)]
    fn levels_each<const BIT: bool>(
        &self,
        numbers: &mut [usize],
        from: usize,
        n: usize,
        tally: &mut Tally,
    ) {
        self.level_each::<Superblock>(BIT, numbers, from, n, tally);
        self.level_each::<Block>(BIT, numbers, from, n, tally);
        self.level_each::<Limb>(BIT, numbers, from, n, tally);
        self.level_each::<Position>(BIT, numbers, from, n, tally);
    }

    // Maps each of `n` numbers through one level.
    #[inline(always)]
    fn level_each<L: Level>(
        &self,
        bit: bool,
        numbers: &mut [usize],
        from: usize,
        n: usize,
        tally: &mut Tally,
    ) {
        for j in 0..n {
            let number = numbers[from + j];
            numbers[from + j] = L::lead(self, bit, number, tally);
        }
    }
}

// Maps a number to the start of its superblock plus its number there.
pub(super) struct Superblock;

impl Level for Superblock {
    #[inline(always)]
    fn lead<A: Allocator + Copy>(
        bits: &RsVec<A>,
        bit: bool,
        number: usize,
        tally: &mut Tally,
    ) -> usize {
        tally.add_rank_call();
        let len = bits.len();
        if number >= bits.total(bit) {
            return len;
        }
        let s = bits.superblock_with(bit, number, tally);
        SUPERBLOCK * s + bits.number_in(bit, number, s, tally) as usize
    }
}

// Maps the start of a superblock plus a number there to the start of its block plus its number there.
pub(super) struct Block;

impl Level for Block {
    #[inline(always)]
    fn lead<A: Allocator + Copy>(
        bits: &RsVec<A>,
        bit: bool,
        position: usize,
        tally: &mut Tally,
    ) -> usize {
        let len = bits.len();
        if position >= len {
            return position;
        }
        let s = position / SUPERBLOCK;
        let is_whole = len - SUPERBLOCK * s >= SUPERBLOCK;
        let found = bits.block_with(bit, (position % SUPERBLOCK) as u16, s, is_whole, tally);
        BLOCK * (BLOCKS * s + found.block as usize) + found.rest as usize
    }
}

// Maps the start of a block plus a number there to the start of its limb plus its number there.
pub(super) struct Limb;

impl Level for Limb {
    #[inline(always)]
    fn lead<A: Allocator + Copy>(
        bits: &RsVec<A>,
        bit: bool,
        position: usize,
        tally: &mut Tally,
    ) -> usize {
        let len = bits.len();
        if position >= len {
            return position;
        }
        let block = position / BLOCK;
        let is_whole = len - BLOCK * block >= BLOCK;
        let at = bits.limb_in_block(bit, position % BLOCK, block, is_whole, tally);
        LIMB * at.limb + at.rest
    }
}

// Maps the start of a limb plus a number there to its position.
pub(super) struct Position;

impl Level for Position {
    #[inline(always)]
    fn lead<A: Allocator + Copy>(
        bits: &RsVec<A>,
        bit: bool,
        position: usize,
        tally: &mut Tally,
    ) -> usize {
        if position >= bits.len() {
            return position;
        }
        let number = InLimb {
            limb: position / LIMB,
            rest: position % LIMB,
        };
        let at = bits.position_in_limb(bit, number, tally);
        LIMB * at.limb + at.position
    }
}
