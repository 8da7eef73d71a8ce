//! Ascending lists of numbers.

use crate::rattle::prelude::*;

mod ahead;
mod batch;
mod begin;
mod iter;
mod low;
mod make;
mod narrow;
mod neighbours;
mod parts;
mod scan;
mod search;
mod successors;

pub use iter::{EliasFanoIter, EliasFanoRefIter};
pub use make::{MAX_LEN, Numbers};
pub use parts::{Ends, Limbs, PartLengths, are_parts};
use crate::rattle::AllocError;
use crate::rattle::Allocator;
pub use successors::Successors;
use crate::proved::vers_rank::fast_rs_vec::RsVec;
use crate::proved::vers_tally::tally::{CountedBits, Tally, Uncounted};

/// An ascending list of numbers, duplicates allowed, in about two bits per element plus the width of a low part.
/// Contracts see an `EliasFanoVec` as the list of its elements, and each query promises that it ascends.
///
/// Each element is stored as its difference to the first. The low parts, the lowest digits of these differences,
/// all of the same width, are stored one after another in a list of bits; the rest, the high part `h` of element
/// `i`, is a one at position `h + i + 1` of a list of bits with rank and select.
pub struct EliasFanoVec<A: Allocator + Copy> {
    high: RsVec<A>,
    low: CountedBits<A>,
    first: u64,
    last: u64,
    width: usize,
    len: usize,
}

impl<A: Allocator + Copy> Clone for EliasFanoVec<A> {
    /// Returns a copy of the list.
    fn clone(&self) -> Result<Self, AllocError> {
        let low = self.low.as_bit_vec(Uncounted).clone()?;
        let high = self.high.clone()?;
        Ok(EliasFanoVec {
            high,
            low: CountedBits::new(low),
            first: self.first,
            last: self.last,
            width: self.width,
            len: self.len,
        })
    }
}

impl<A: Allocator + Copy> EliasFanoVec<A> {
    /// Returns the number of elements.
    #[inline]
    pub fn len(&self) -> usize {
        self.len
    }

    /// Returns true if the list is empty.
    #[inline]
    pub fn is_empty(&self) -> bool {
        self.len() == 0
    }

    // Returns the first element, or 0 if there is none.
    #[inline(always)]
    fn first(&self) -> u64 {
        self.first
    }

    // Returns the last element, or 0 if there is none.
    #[inline(always)]
    fn last(&self) -> u64 {
        self.last
    }

    /// Returns the number of bytes that the high parts with their index and the low parts take.
    pub fn heap_size(&self) -> usize {
        let _ = self.high.len();
        self.high.heap_size() + 8 * self.low.len().div_ceil(64)
    }

    /// Returns the element at position `i`, or `None` if `i` is out of bounds.
    #[inline]
    pub fn get(&self, i: usize) -> Option<u64> {
        let mut tally = Tally::new();
        self.get_counted(i, &mut tally)
    }

    /// Returns the element at position `i`. Precondition: `i` is below the length.
    #[inline]
    pub fn get_unchecked(&self, i: usize) -> u64 {
        let _ = self.len();
        let mut tally = Tally::new();
        self.element(i, &mut tally)
    }

    /// Returns the element at position `i`, or `None` if `i` is out of bounds: `get(i)`.
    #[inline]
    pub fn select(&self, i: usize) -> Option<u64> {
        let mut tally = Tally::new();
        self.select_counted(i, &mut tally)
    }

    /// Returns the difference between element `i` and the previous one, or the first element itself if `i` is 0.
    /// `None` if `i` is out of bounds.
    #[inline]
    pub fn delta(&self, i: usize) -> Option<u64> {
        let mut tally = Tally::new();
        self.delta_counted(i, &mut tally)
    }

    /// Returns the number of elements below `v`.
    #[inline]
    pub fn rank(&self, v: u64) -> u64 {
        let mut tally = Tally::new();
        self.rank_counted(v, &mut tally)
    }

    /// Returns true if `v` is an element.
    #[inline]
    pub fn has(&self, v: u64) -> bool {
        let mut tally = Tally::new();
        self.has_counted(v, &mut tally)
    }

    /// Returns the greatest element that is at most `v`, or `None` if there is none.
    #[inline]
    pub fn predecessor(&self, v: u64) -> Option<u64> {
        let mut tally = Tally::new();
        self.predecessor_counted(v, &mut tally)
    }

    /// Returns the greatest element that is at most `v`. Precondition: there is one.
    #[inline]
    pub fn predecessor_unchecked(&self, v: u64) -> u64 {
        self.predecessor(v).unwrap()
    }

    /// Returns the least element that is at least `v`, or `None` if there is none.
    #[inline]
    pub fn successor(&self, v: u64) -> Option<u64> {
        let mut tally = Tally::new();
        self.successor_counted(v, &mut tally)
    }

    /// Returns the least element that is at least `v`. Precondition: there is one.
    #[inline]
    pub fn successor_unchecked(&self, v: u64) -> u64 {
        self.successor(v).unwrap()
    }
}

/// Returns two lists, the shorter first.
#[inline(always)]
pub fn by_length<'a, A: Allocator + Copy>(
    one: &'a EliasFanoVec<A>,
    other: &'a EliasFanoVec<A>,
) -> (&'a EliasFanoVec<A>, &'a EliasFanoVec<A>) {
    if one.len() <= other.len() {
        (one, other)
    } else {
        (other, one)
    }
}
