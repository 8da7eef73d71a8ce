//! Lists of bits.

use crate::rattle::prelude::*;

use crate::proved::vers_bits::bit_vec::chunks::{are_same, ones_of};
pub use crate::proved::vers_bits::bit_vec::fault::{GrowError, LengthMismatch, OutOfRange, SplitCause, SplitError};
pub use crate::proved::vers_bits::bit_vec::iter::{BitVecIter, BitVecRefIter, LimbIter};
pub use crate::proved::vers_bits::bit_vec::mask::BitMask;
use crate::rattle::AllocError;
use crate::rattle::Allocator;
use std::hash::Hash;
use std::hash::Hasher;

mod chunks;
mod edit;
mod fault;
mod grow;
mod iter;
mod make;
pub mod mask;
mod words;

/// The greatest length of a list of bits.
pub const MAX_LEN: usize = usize::MAX - 63;

/// A list of bits, stored in limbs of 64 bits and nothing else. Bit `p` is bit `p % 64` of limb `p / 64`, least
/// significant first. Contracts see a `BitVec` as the list of its bits.
pub struct BitVec<A: Allocator + Copy> {
    data: Vec<u64, A>,
    len: usize,
}

impl<A: Allocator + Copy> PartialEq for BitVec<A> {
    /// Returns true if both lists have the same bits.
    fn eq(&self, other: &BitVec<A>) -> bool {
        self.len() == other.len() && are_same(self.limbs(), other.limbs())
    }
}

impl<A: Allocator + Copy> Eq for BitVec<A> {}

impl<A: Allocator + Copy> Hash for BitVec<A> {
    /// Feeds the length, then each limb, to the hasher.
    fn hash<H: Hasher>(&self, state: &mut H) {
        state.write_usize(self.len());
        for limb in self.limbs() {
            limb.hash(state);
        }
    }
}

impl<A: Allocator + Copy> Clone for BitVec<A> {
    /// Returns a copy of the list.
    fn clone(&self) -> Result<Self, AllocError> {
        let data = Vec::from_slice(*self.data.allocator(), self.data.as_slice())?;
        Ok(BitVec {
            data,
            len: self.len,
        })
    }
}

impl<A: Allocator + Copy> BitVec<A> {
    /// Returns the empty list, which allocates nothing.
    pub fn new(alloc: A) -> Self {
        BitVec {
            data: Vec::new(alloc),
            len: 0,
        }
    }

    /// Returns the number of bits.
    pub fn len(&self) -> usize {
        self.len
    }

    /// Returns true if the list is empty.
    pub fn is_empty(&self) -> bool {
        self.len() == 0
    }

    /// Returns true if the bit at `position` is a one, or `None` if `position` is out of bounds.
    pub fn is_bit_set(&self, position: usize) -> Option<bool> {
        if position >= self.len() {
            return None;
        }
        Some((self.data[position / 64] >> (position % 64)) & 1 == 1)
    }

    /// Returns the bit at `position`, 1 or 0, or `None` if `position` is out of bounds.
    pub fn get(&self, position: usize) -> Option<u64> {
        if position >= self.len() {
            return None;
        }
        Some((self.data[position / 64] >> (position % 64)) & 1)
    }

    /// Returns true if the bit at `position` is a one. Precondition: `position` is below the length.
    pub fn is_bit_set_unchecked(&self, position: usize) -> bool {
        (self.data[position / 64] >> (position % 64)) & 1 == 1
    }

    /// Returns the bit at `position`, 1 or 0. Precondition: `position` is below the length.
    pub fn get_unchecked(&self, position: usize) -> u64 {
        u64::from(self.is_bit_set_unchecked(position))
    }

    /// Returns limb `k`: the 64 bits from position `64 * k`, least significant first, with zeros past the
    /// length. Precondition: limb `k` contains at least one bit of the list.
    pub fn limb(&self, k: usize) -> u64 {
        self.data[k]
    }

    /// Returns block `k` of 8 limbs, from limb `8 * k`, with zeros past the length. `None` if the list has
    /// fewer limbs.
    #[inline(always)]
    pub fn limb_block(&self, k: usize) -> Option<&[u64; 8]> {
        let (blocks, _) = self.limbs().as_arrays::<8>();
        blocks.get(k)
    }

    // Returns all limbs.
    fn limbs(&self) -> &[u64] {
        known_words(self.data.as_slice())
    }

    /// Returns the number of ones.
    pub fn count_ones(&self) -> u64 {
        // There are few enough limbs for their ones to be counted.
        let _ = self.len();
        ones_of(self.limbs())
    }

    /// Returns the number of zeros.
    pub fn count_zeros(&self) -> u64 {
        self.len() as u64 - self.count_ones()
    }

    /// Returns the number of bytes that the limbs take.
    pub fn heap_size(&self) -> usize {
        8 * self.data.len()
    }

    /// Returns the `n` bits from `position` on as a number. `None` if there are fewer, or `n` is 0 or above
    /// 64.
    pub fn get_bits(&self, position: usize, n: usize) -> Option<u64> {
        let len = self.len();
        if n == 0 || n > 64 || position > len || n > len - position {
            return None;
        }
        Some(self.get_bits_unchecked(position, n))
    }

    /// Returns the `n` bits from `position` on as a number: 0 if `n` is 0. Precondition: `n` is at most 64,
    /// and `position + n` at most the length.
    pub fn get_bits_unchecked(&self, position: usize, n: usize) -> u64 {
        // A position below the length is below `MAX_LEN`.
        let _ = self.len();
        if n == 0 {
            return 0;
        }
        // The limb of the last bit is the next one, or the first again, of which no bit is kept: no branch
        // depends on the position, which would often be mispredicted.
        let first = self.limb(position / 64) >> (position % 64);
        let last = self.limb((position + n - 1) / 64) << 1 << (63 - position % 64);
        (first | last) & (u64::MAX >> (64 - n))
    }

    /// Returns element `index` of the list, read as packed elements of `n` bits. `None` if there is no such
    /// element, or `n` is 0 or above 64.
    pub fn unpack_element(&self, index: usize, n: usize) -> Option<u64> {
        // A product that overflows exceeds `MAX_LEN`, and so the length.
        let _ = self.len();
        match index.checked_mul(n) {
            Some(position) => self.get_bits(position, n),
            None => None,
        }
    }

    /// Returns element `index` of the list, read as packed elements of `n` bits: 0 if `n` is 0. Precondition:
    /// `n` is at most 64, and the list has the element.
    pub fn unpack_element_unchecked(&self, index: usize, n: usize) -> u64 {
        // A position below the length is below `MAX_LEN`.
        let _ = self.len();
        self.get_bits_unchecked(index * n, n)
    }

    /// Returns a copy of the allocator.
    pub fn allocator(&self) -> A {
        *self.data.allocator()
    }
}

// Returns the same words. The contract adds that each of them has 64 bits.
fn known_words(words: &[u64]) -> &[u64] {
    words
}
