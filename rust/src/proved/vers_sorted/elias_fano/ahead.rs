//! The bits of the high parts that a walk along the elements has read ahead, from the front or from the back.

use crate::rattle::prelude::*;

use super::EliasFanoVec;
use crate::rattle::Allocator;
use crate::proved::vers_tally::tally::Tally;

// Bits of the high parts: `len` of them from `position` on, as a number. No ones if nothing was read.
#[derive(Clone, Copy)]
pub(super) struct Ahead {
    pub(super) position: usize,
    pub(super) len: usize,
    pub(super) word: u64,
}

impl Ahead {
    // Returns an empty read-ahead.
    #[inline]
    pub(super) fn none() -> Ahead {
        Ahead {
            position: 0,
            len: 0,
            word: 0,
        }
    }
}

impl<A: Allocator + Copy> EliasFanoVec<A> {
    // Returns the position of the one of an element, which mostly was read ahead with those before it.
    #[inline(always)]
    pub(super) fn position_ahead(&self, i: usize, ahead: &mut Ahead, tally: &mut Tally) -> usize {
        let bits = self.high.len();
        if ahead.word != 0 {
            return self.position_read(i, ahead);
        }
        let position = self.high.select1_counted(i, tally);
        let len = (bits - position - 1).min(64);
        ahead.position = position + 1;
        ahead.len = len;
        ahead.word = self
            .high
            .get_bits_counted(position + 1, len, tally)
            .unwrap_or(0);
        position
    }

    // Returns the position of the one of an element, which was read ahead.
    #[inline(always)]
    pub(super) fn position_read(&self, i: usize, ahead: &mut Ahead) -> usize {
        let _ = self.high.len();
        let skip = ahead.word.trailing_zeros() as usize;
        ahead.word = (ahead.word >> skip) >> 1;
        ahead.position += skip + 1;
        ahead.len -= skip + 1;
        ahead.position - 1
    }

    // Returns an element, by the position of its one.
    #[inline(always)]
    pub(super) fn element_ahead(&self, i: usize, ahead: &mut Ahead, tally: &mut Tally) -> u64 {
        let high = (self.position_ahead(i, ahead, tally) - i - 1) as u64;
        self.with_low_part(high, i, tally)
    }

    // Returns the position of the one of an element in a walk from the back, which mostly was read with a later one.
    #[inline(always)]
    fn position_behind(&self, i: usize, behind: &mut Ahead, tally: &mut Tally) -> usize {
        let _ = self.high.len();
        if behind.word != 0 {
            return self.position_read_behind(i, behind);
        }
        let position = self.high.select1_counted(i, tally);
        let len = position.min(64);
        behind.position = position - len;
        behind.len = len;
        behind.word = self
            .high
            .get_bits_counted(position - len, len, tally)
            .unwrap_or(0);
        position
    }

    // Returns the position of the one of an element, which was read with a later one.
    #[inline(always)]
    fn position_read_behind(&self, i: usize, behind: &mut Ahead) -> usize {
        let _ = self.high.len();
        let highest = 63 - behind.word.leading_zeros() as usize;
        behind.word %= 1 << highest;
        behind.len = highest;
        behind.position + highest
    }

    // Returns an element in a walk from the back, by the position of its one.
    #[inline(always)]
    pub(super) fn element_behind(&self, i: usize, behind: &mut Ahead, tally: &mut Tally) -> u64 {
        let high = (self.position_behind(i, behind, tally) - i - 1) as u64;
        self.with_low_part(high, i, tally)
    }
}
