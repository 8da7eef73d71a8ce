//! Equality of indexed lists.

use crate::rattle::prelude::*;

use super::RsVec;
use super::reader::Reader;
use crate::rattle::Allocator;
use crate::proved::vers_tally::tally::{Tally, Uncounted};

impl<A: Allocator + Copy> RsVec<A> {
    /// Returns true if both lists have the same bits, comparing the positions of their zeros if `ZERO` is true,
    /// otherwise of their ones. Fast if these are few.
    #[inline]
    pub fn sparse_equals<const ZERO: bool>(&self, other: &Self) -> bool {
        self.has_positions_of(!ZERO, other)
    }

    /// Returns true if both lists have the same bits, comparing all limbs.
    #[inline]
    pub fn full_equals(&self, other: &Self) -> bool {
        self == other
    }

    // Returns true if both lists have the same length and the same positions of a bit, by a walk over each.
    fn has_positions_of(&self, bit: bool, other: &Self) -> bool {
        if self.len() != other.len() {
            return false;
        }
        if self.total(bit) != other.total(bit) {
            return false;
        }
        let mut tally = Tally::new();
        let mut here = Reader::new();
        let mut there = Reader::new();
        for r in 0..self.total(bit) {
            let position = here.position(bit, r, self, &mut tally);
            if position != there.position(bit, r, other, &mut tally) {
                return false;
            }
        }
        true
    }
}

impl<A: Allocator + Copy> PartialEq for RsVec<A> {
    /// Returns true if both lists have the same bits.
    fn eq(&self, other: &RsVec<A>) -> bool {
        self.bits.as_bit_vec(Uncounted) == other.bits.as_bit_vec(Uncounted)
    }
}

impl<A: Allocator + Copy> Eq for RsVec<A> {}
