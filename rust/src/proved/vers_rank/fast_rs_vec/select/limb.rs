//! The limb of an occurrence in its block, and its position in the limb.

use crate::rattle::prelude::*;

use crate::proved::vers_rank::fast_rs_vec::{BLOCK, LIMB, RsVec};
use crate::proved::vers_rank::word::{held_in_word, held_of, position_in_word};
use crate::rattle::Allocator;
use crate::proved::vers_tally::tally::Tally;

// A limb, and the number of positions of its block before it that have a bit.
#[derive(Clone, Copy)]
struct FoundLimb {
    limb: usize,
    before: usize,
}

// Half of a block by its first limb, and the ones of its first two limbs.
#[derive(Clone, Copy)]
struct FoundHalf {
    found: FoundLimb,
    ones: usize,
}

// A limb, and the number within it of a number in a block.
#[derive(Clone, Copy)]
pub(crate) struct InLimb {
    pub(crate) limb: usize,
    pub(crate) rest: usize,
}

// A location: the limb, its word, and the position in the word.
#[derive(Clone, Copy)]
pub(crate) struct InWord {
    pub(crate) limb: usize,
    pub(crate) word: u64,
    pub(crate) position: usize,
}

impl<A: Allocator + Copy> RsVec<A> {
    // Returns the limb of number `r` of a block, and the number in it.
    #[inline(always)]
    pub(crate) fn limb_in_block(
        &self,
        bit: bool,
        r: usize,
        block: usize,
        is_whole: bool,
        tally: &mut Tally,
    ) -> InLimb {
        let _ = self.len();
        let found = self.limb_with(bit, r, block, is_whole, tally);
        InLimb {
            limb: found.limb,
            rest: r - found.before,
        }
    }

    // Returns the location of a number in a limb.
    #[inline(always)]
    pub(crate) fn position_in_limb(&self, bit: bool, at: InLimb, tally: &mut Tally) -> InWord {
        let word = self.bits.limb(at.limb, tally);
        let position = position_in_word(word, bit, at.rest);
        InWord {
            limb: at.limb,
            word,
            position,
        }
    }

    // Returns the limb of number `r` of a block.
    #[inline(always)]
    fn limb_with(
        &self,
        bit: bool,
        r: usize,
        block: usize,
        is_whole: bool,
        tally: &mut Tally,
    ) -> FoundLimb {
        if is_whole {
            return self.limb_by_halves(bit, r, block, tally);
        }
        let last = (self.len() - 1) / LIMB;
        self.limb_up_to(bit, r, block, (8 * block + 7).min(last), tally)
    }

    // Returns the limb of number `r` among the 8 of a block, or the last of them: by halves, with no branch on
    // their bits, which would be mispredicted.
    #[inline(always)]
    fn limb_by_halves(&self, bit: bool, r: usize, block: usize, tally: &mut Tally) -> FoundLimb {
        let _ = self.len();
        let limb = 8 * block;
        // The last first, so that a test of its position serves all.
        let third = self.ones_of_two(limb + 4, tally);
        let second = self.ones_of_two(limb + 2, tally);
        let first = self.ones_of_two(limb, tally);
        let two = first + second;
        let half = self.half_of_block(bit, r, block, first, two, third);
        let quarter = self.half_of(bit, r, block, half.found, 2, half.ones);
        let ones = self.ones_of_whole(quarter.limb, tally);
        self.half_of(bit, r, block, quarter, 1, ones)
    }

    // Returns the half of a block that contains number `r`, by the ones of its first pair of limbs, of its
    // first two pairs, and of its third pair. It selects a value without a branch.
    #[inline(always)]
    fn half_of_block(
        &self,
        bit: bool,
        r: usize,
        block: usize,
        first: usize,
        two: usize,
        third: usize,
    ) -> FoundHalf {
        let _ = self.len();
        let limb = 8 * block;
        let before = held_of(bit, two, BLOCK / 2);
        if before <= r {
            FoundHalf {
                found: FoundLimb {
                    limb: limb + 4,
                    before,
                },
                ones: third,
            }
        } else {
            FoundHalf {
                found: FoundLimb { limb, before: 0 },
                ones: first,
            }
        }
    }

    // Returns the half of number `r` among twice `n` limbs: the second if the first, of which `ones` positions
    // are ones, doesn't pass the number. It selects a value without a branch.
    #[inline(always)]
    fn half_of(
        &self,
        bit: bool,
        r: usize,
        block: usize,
        all: FoundLimb,
        n: usize,
        ones: usize,
    ) -> FoundLimb {
        let _ = self.len();
        let limb = all.limb + n;
        let before = all.before + held_of(bit, ones, LIMB * n);
        if before <= r {
            FoundLimb { limb, before }
        } else {
            all
        }
    }

    // Returns the limb of number `r` among those of a block up to the one before `last`, or `last` itself: one
    // after the other.
    #[inline(always)]
    fn limb_up_to(
        &self,
        bit: bool,
        r: usize,
        block: usize,
        last: usize,
        tally: &mut Tally,
    ) -> FoundLimb {
        let mut before = 0;
        for k in 8 * block..last {
            let seen = before + held_in_word(self.bits.limb(k, tally), bit);
            if r < seen {
                return FoundLimb { limb: k, before };
            }
            before = seen;
        }
        FoundLimb { limb: last, before }
    }
}
