//! Numbers that are read and written digit by digit.

use crate::rattle::prelude::*;

use crate::rattle::Allocator;
use crate::proved::vers_bits::bit_vec::BitVec;

// A number by its binary digits: a word, or a list of them.
pub(crate) trait Digits {
    // Returns true if digit `i` is 1.
    fn digit(&self, i: usize) -> bool;

    // Sets digit `i` to the bit. Precondition: the number has zeros from there on down, and keeps within its
    // digits.
    fn put_digit(&mut self, i: usize, bit: bool);
}

impl Digits for u64 {
    #[inline(always)]
    fn digit(&self, i: usize) -> bool {
        (*self >> i) & 1 == 1
    }

    #[inline(always)]
    fn put_digit(&mut self, i: usize, bit: bool) {
        *self += if bit { 1 << i } else { 0 };
    }
}

impl<A: Allocator + Copy> Digits for BitVec<A> {
    #[inline(always)]
    fn digit(&self, i: usize) -> bool {
        self.is_bit_set_unchecked(i)
    }

    #[inline(always)]
    fn put_digit(&mut self, i: usize, bit: bool) {
        if bit {
            self.set_unchecked(i, 1);
        }
    }
}

// Copies the digits from digit `low` on, before digit `high`, of a number into one that is 0.
#[inline(always)]
pub(super) fn copy_digits<D: Digits>(from: &D, low: usize, high: usize, to: &mut D) {
    for i in 0..high - low {
        let j = high - (i + 1);
        let bit = from.digit(j);
        to.put_digit(j, bit);
    }
}
