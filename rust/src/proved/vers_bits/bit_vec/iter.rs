//! The iterators over the bits and over the limbs of a list of bits.

use crate::rattle::prelude::*;

use crate::proved::vers_bits::bit_vec::BitVec;
use crate::proved::vers_bits::list_ends::{BorrowedList, ListEnds, Listed, OwnedList};
use crate::rattle::AllocError;
use crate::rattle::Allocator;

impl<'a, A: Allocator + Copy> Listed for &'a BitVec<A> {
    type Item = u64;

    #[inline]
    fn count_items(&self) -> usize {
        self.len()
    }

    #[inline]
    fn item_at(&self, i: usize) -> u64 {
        self.get_unchecked(i)
    }
}

impl<'a, A: Allocator + Copy> BorrowedList for &'a BitVec<A> {
    fn second(&self) -> Self {
        *self
    }
}

impl<A: Allocator + Copy> Listed for BitVec<A> {
    type Item = u64;

    #[inline]
    fn count_items(&self) -> usize {
        self.len()
    }

    #[inline]
    fn item_at(&self, i: usize) -> u64 {
        self.get_unchecked(i)
    }
}

impl<A: Allocator + Copy> OwnedList for BitVec<A> {
    fn second(&self) -> Result<Self, AllocError> {
        self.clone()
    }
}

/// The limbs of a list of bits, which iterators read one by one.
pub struct Limbs<'a, A: Allocator + Copy> {
    bits: &'a BitVec<A>,
}

impl<'a, A: Allocator + Copy> Listed for Limbs<'a, A> {
    type Item = u64;

    #[inline]
    fn count_items(&self) -> usize {
        self.bits.len().div_ceil(64)
    }

    #[inline]
    fn item_at(&self, i: usize) -> u64 {
        self.bits.limb(i)
    }
}

impl<'a, A: Allocator + Copy> BorrowedList for Limbs<'a, A> {
    fn second(&self) -> Self {
        Limbs { bits: self.bits }
    }
}

/// An iterator over the bits of a list, as numbers: 1 for a one, 0 for a zero.
pub type BitVecRefIter<'a, A> = ListEnds<&'a BitVec<A>>;

/// An iterator over the bits of a list that it owns, as numbers: 1 for a one, 0 for a zero.
pub type BitVecIter<A> = ListEnds<BitVec<A>>;

/// An iterator over the limbs of a list of bits, 64 bits each, least significant first, with zeros past the
/// length.
pub type LimbIter<'a, A> = ListEnds<Limbs<'a, A>>;

impl<A: Allocator + Copy> BitVec<A> {
    /// Returns an iterator over the bits, as numbers.
    pub fn iter(&self) -> BitVecRefIter<'_, A> {
        ListEnds::new(self)
    }

    /// Returns an iterator over the limbs.
    pub fn iter_limbs(&self) -> LimbIter<'_, A> {
        ListEnds::new(Limbs { bits: self })
    }
}

impl<'a, A: Allocator + Copy> IntoIterator for &'a BitVec<A> {
    type Item = u64;

    type IntoIter = BitVecRefIter<'a, A>;

    fn into_iter(self) -> BitVecRefIter<'a, A> {
        self.iter()
    }
}

impl<'a, A: Allocator + Copy> IntoIterator for &'a mut BitVec<A> {
    type Item = u64;

    type IntoIter = BitVecRefIter<'a, A>;

    fn into_iter(self) -> BitVecRefIter<'a, A> {
        self.iter()
    }
}

impl<A: Allocator + Copy> IntoIterator for BitVec<A> {
    type Item = u64;

    type IntoIter = BitVecIter<A>;

    /// Returns an iterator over the bits, as numbers, which owns the list.
    fn into_iter(self) -> BitVecIter<A> {
        ListEnds::new(self)
    }
}
