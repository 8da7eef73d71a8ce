//! The sources of lists of symbols.

use crate::rattle::prelude::*;

use crate::proved::vers_wavelet::wavelet::integer::Integer;
use crate::rattle::Allocator;
use crate::proved::vers_bits::bit_vec::{BitVec, MAX_LEN};

// Items that represent numbers, of which only the `width` low digits count.
pub(super) trait Source {
    type Item: Copy;

    // Returns the number of items.
    fn len(&self) -> usize;

    // Returns the number of digits that count.
    fn width(&self) -> usize;

    // Returns item `i`.
    fn item(&self, i: usize) -> Self::Item;

    // Returns true if digit `i` of an item's number is 1.
    fn digit(&self, item: Self::Item, i: usize) -> bool;

    // Returns the `n` highest of the digits that count, as a number.
    fn prefix(&self, item: Self::Item, n: usize) -> usize;
}

// The numbers of a slice. An item is the number itself.
pub(super) struct Words<'a, N: Integer> {
    numbers: &'a [N],
    width: usize,
}

impl<'a, N: Integer> Words<'a, N> {
    // Returns the low digits of the numbers; no items if no digits count.
    pub(super) fn new(numbers: &'a [N], width: usize) -> Self {
        let kept = if width == 0 { 0 } else { numbers.len() };
        Words {
            numbers: numbers.split_at(kept).0,
            width,
        }
    }
}

impl<'a, N: Integer> Source for Words<'a, N> {
    type Item = N;

    fn len(&self) -> usize {
        N::len_of(self.numbers)
    }

    fn width(&self) -> usize {
        self.width
    }

    fn item(&self, i: usize) -> N {
        self.numbers[i]
    }

    #[inline(always)]
    fn digit(&self, item: N, i: usize) -> bool {
        (item.number() >> i) & 1 == 1
    }

    #[inline(always)]
    fn prefix(&self, item: N, n: usize) -> usize {
        (item.number() >> (self.width - n)) & ((1 << n) - 1)
    }
}

// The packed numbers of a list of bits. An item is the index of a number.
pub(super) struct Packed<'a, A: Allocator + Copy> {
    bits: &'a BitVec<A>,
    width: usize,
}

impl<'a, A: Allocator + Copy> Packed<'a, A> {
    // Returns the numbers of `width` bits each.
    pub(super) fn new(bits: &'a BitVec<A>, width: usize) -> Self {
        // The length is known to be at most `MAX_LEN`.
        let _ = bits.len();
        Packed { bits, width }
    }
}

impl<'a, A: Allocator + Copy> Source for Packed<'a, A> {
    type Item = usize;

    fn len(&self) -> usize {
        self.bits.len() / self.width
    }

    fn width(&self) -> usize {
        self.width
    }

    fn item(&self, i: usize) -> usize {
        i
    }

    #[inline(always)]
    fn digit(&self, item: usize, i: usize) -> bool {
        self.bits.is_bit_set_unchecked(item * self.width + i)
    }

    #[inline(always)]
    fn prefix(&self, item: usize, n: usize) -> usize {
        let start = item * self.width + (self.width - n);
        self.bits.get_bits_unchecked(start, n) as usize
    }
}
