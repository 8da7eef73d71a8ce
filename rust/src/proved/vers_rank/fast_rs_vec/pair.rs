//! The positions of two consecutive zeros or ones.

use crate::rattle::prelude::*;

use super::{LIMB, RsVec};
use crate::proved::vers_rank::word::marks;
use crate::rattle::Allocator;
use crate::proved::vers_tally::tally::Tally;

/// The positions of two consecutive zeros of a list, or of two consecutive ones.
#[derive(Clone, Copy)]
pub struct PositionPair {
    /// The position of the first.
    pub first: usize,
    /// The position of the next one.
    pub second: usize,
}

impl<A: Allocator + Copy> RsVec<A> {
    /// Returns the positions of zero `r` (from 0) and of the next zero, each the length if there are fewer.
    #[inline]
    pub fn select0_pair(&self, r: usize) -> PositionPair {
        let mut tally = Tally::new();
        self.select0_pair_counted(r, &mut tally)
    }

    /// Returns `select0_pair(r)`. Counts one query. Reads at most what one select does if both are in one word
    /// of 64 bits, otherwise two.
    #[inline(always)]
    pub fn select0_pair_counted(&self, r: usize, tally: &mut Tally) -> PositionPair {
        self.pair_of(false, r, tally)
    }

    /// Returns the positions of one `r` (from 0) and of the next one, each the length if there are fewer.
    #[inline]
    pub fn select1_pair(&self, r: usize) -> PositionPair {
        let mut tally = Tally::new();
        self.select1_pair_counted(r, &mut tally)
    }

    /// Returns `select1_pair(r)`. Counts one query. Reads at most what one select does if both are in one word
    /// of 64 bits, otherwise two.
    #[inline(always)]
    pub fn select1_pair_counted(&self, r: usize, tally: &mut Tally) -> PositionPair {
        self.pair_of(true, r, tally)
    }

    // Returns the positions of zero or one `r` and of the next, mostly from the rest of its word. Both selects
    // of the rare case are one call in the source, so that the compiler inlines the search only once.
    #[inline(always)]
    fn pair_of(&self, bit: bool, r: usize, tally: &mut Tally) -> PositionPair {
        tally.add_rank_call();
        let len = self.len();
        let total = self.total(bit);
        if r >= total {
            return PositionPair {
                first: len,
                second: len,
            };
        }
        let mut first = len;
        let mut number = r;
        loop {
            let at = self.locate(bit, number, tally);
            let position = LIMB * at.limb + at.position;
            if number > r {
                return PositionPair {
                    first,
                    second: position,
                };
            }
            let after = marks(bit, at.word) >> at.position >> 1;
            if after != 0 {
                // The last word has zeros past the end too.
                let second = position + 1 + after.trailing_zeros() as usize;
                return PositionPair {
                    first: position,
                    second: second.min(len),
                };
            }
            first = position;
            number = r + 1;
            if number >= total {
                return PositionPair { first, second: len };
            }
        }
    }
}
