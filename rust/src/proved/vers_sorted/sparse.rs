//! Lists of bits with few ones.

use crate::rattle::prelude::*;

use crate::proved::vers_sorted::elias_fano::{EliasFanoRefIter, EliasFanoVec, MAX_LEN, Numbers};
use crate::rattle::AllocError;
use crate::rattle::Allocator;
use crate::proved::vers_bits::bit_vec::BitVec;
use crate::proved::vers_tally::tally::Tally;

/// A list of bits that stores only the positions of its ones, as an ascending list, for bits with few ones.
/// Contracts see a `SparseRSVec` as the list of its bits.
pub struct SparseRSVec<A: Allocator + Copy> {
    ones: EliasFanoVec<A>,
    len: u64,
}

impl<A: Allocator + Copy> Clone for SparseRSVec<A> {
    /// Returns a copy of the list.
    fn clone(&self) -> Result<Self, AllocError> {
        let ones = self.ones.clone()?;
        Ok(SparseRSVec {
            ones,
            len: self.len,
        })
    }
}

impl<A: Allocator + Copy> SparseRSVec<A> {
    /// Returns the list of `len` bits with ones at the given positions. Precondition: these ascend strictly and
    /// are below `len`. Errors: `AllocError` only if the allocator refuses a request.
    pub fn new(alloc: A, ones: &[u64], len: u64) -> Result<Self, AllocError> {
        Ok(SparseRSVec::from_sorted(EliasFanoVec::from_slice(alloc, ones)?, len))
    }

    /// Returns the list of `len` bits with ones at the elements of a list. Precondition: these ascend strictly
    /// and are below `len`.
    pub fn from_sorted(ones: EliasFanoVec<A>, len: u64) -> Self {
        SparseRSVec { ones, len }
    }

    /// Returns the same bits in sparse form. Errors: `AllocError` only if the allocator refuses a request.
    pub fn from_bitvec(bits: &BitVec<A>) -> Result<Self, AllocError> {
        SparseRSVec::from_positions(bits, true)
    }

    /// Returns the bits of another list with ones and zeros exchanged. Errors: `AllocError` only if the
    /// allocator refuses a request.
    pub fn from_bitvec_inverted(bits: &BitVec<A>) -> Result<Self, AllocError> {
        SparseRSVec::from_positions(bits, false)
    }

    // Returns the list with ones where another has `bit`.
    fn from_positions(bits: &BitVec<A>, bit: bool) -> Result<Self, AllocError> {
        let len = count_of(bits, bit);
        // A list of more elements needs more memory than there can be.
        if len > MAX_LEN {
            return Err(AllocError);
        }
        let positions = Positions { bits, bit, from: 0 };
        let from = last_start(bits, bit);
        let last = last_left(Positions { bits, bit, from });
        Ok(SparseRSVec {
            ones: EliasFanoVec::from_numbers(bits.allocator(), positions, len, last)?,
            len: bits.len() as u64,
        })
    }

    /// Returns the number of bits.
    #[inline]
    pub fn len(&self) -> u64 {
        self.len
    }

    /// Returns true if the list is empty.
    #[inline]
    pub fn is_empty(&self) -> bool {
        self.len() == 0
    }

    /// Returns the number of bytes that the list of the ones' positions takes.
    pub fn heap_size(&self) -> usize {
        let _ = &self.len;
        self.ones.heap_size()
    }

    /// Returns true if the bit at `position` is a one, or `None` if `position` is out of bounds.
    #[inline]
    pub fn is_set(&self, position: u64) -> Option<bool> {
        let mut tally = Tally::new();
        self.is_set_counted(position, &mut tally)
    }

    /// Returns `is_set(position)`. Reads at most what one search among the positions of the ones does.
    #[inline(always)]
    pub fn is_set_counted(&self, position: u64, tally: &mut Tally) -> Option<bool> {
        if position >= self.len() {
            return None;
        }
        Some(self.holds_one(position, tally))
    }

    // Returns true if the bit at `position` is a one. Precondition: `position` is below the length.
    #[inline(always)]
    fn holds_one(&self, position: u64, tally: &mut Tally) -> bool {
        let _ = &self.len;
        self.ones.has_counted(position, tally)
    }

    /// Returns true if the bit at `position` is a one. Precondition: `position` is below the length.
    #[inline]
    pub fn is_set_unchecked(&self, position: u64) -> bool {
        let mut tally = Tally::new();
        self.holds_one(position, &mut tally)
    }

    /// Returns the bit at `position`, 1 or 0, or `None` if `position` is out of bounds.
    #[inline]
    pub fn get(&self, position: u64) -> Option<u64> {
        let mut tally = Tally::new();
        self.get_counted(position, &mut tally)
    }

    /// Returns `get(position)`. Reads at most what one search among the positions of the ones does.
    #[inline(always)]
    pub fn get_counted(&self, position: u64, tally: &mut Tally) -> Option<u64> {
        if position >= self.len() {
            return None;
        }
        Some(u64::from(self.holds_one(position, tally)))
    }

    /// Returns the bit at `position`, 1 or 0. Precondition: `position` is below the length.
    #[inline]
    pub fn get_unchecked(&self, position: u64) -> u64 {
        u64::from(self.is_set_unchecked(position))
    }

    /// Returns the position of one `r` (from 0), or the length if there are fewer.
    #[inline]
    pub fn select1(&self, r: usize) -> u64 {
        let mut tally = Tally::new();
        self.select1_counted(r, &mut tally)
    }

    /// Returns `select1(r)`. Reads at most what one element of the positions of the ones does.
    #[inline(always)]
    pub fn select1_counted(&self, r: usize, tally: &mut Tally) -> u64 {
        let _ = &self.len;
        match self.ones.get_counted(r, tally) {
            Some(position) => position,
            None => self.len,
        }
    }

    /// Returns the number of ones below `position`; all ones if `position` is past the end.
    #[inline]
    pub fn rank1(&self, position: u64) -> u64 {
        let mut tally = Tally::new();
        self.rank1_counted(position, &mut tally)
    }

    /// Returns `rank1(position)`. Reads at most what one search among the positions of the ones does.
    #[inline(always)]
    pub fn rank1_counted(&self, position: u64, tally: &mut Tally) -> u64 {
        let _ = &self.len;
        self.ones.rank_counted(position, tally)
    }

    /// Returns the number of zeros below `position`; all zeros if `position` is past the end.
    #[inline]
    pub fn rank0(&self, position: u64) -> u64 {
        let mut tally = Tally::new();
        self.rank0_counted(position, &mut tally)
    }

    /// Returns `rank0(position)`. Reads at most what one search among the positions of the ones does.
    #[inline(always)]
    pub fn rank0_counted(&self, position: u64, tally: &mut Tally) -> u64 {
        let ones = self.rank1_counted(position, tally);
        position.min(self.len()) - ones
    }

    /// Returns the positions of the ones, an ascending list.
    pub fn ones(&self) -> &EliasFanoVec<A> {
        let _ = &self.len;
        &self.ones
    }

    /// Returns an iterator over the positions of the ones.
    pub fn iter1(&self) -> EliasFanoRefIter<'_, A> {
        let _ = &self.len;
        self.ones.iter()
    }
}

// The positions of the ones or the zeros of a list, from position `from` on.
#[derive(Clone, Copy)]
struct Positions<'a, A: Allocator + Copy> {
    bits: &'a BitVec<A>,
    bit: bool,
    from: usize,
}

impl<A: Allocator + Copy> Numbers for Positions<'_, A> {
    #[inline(always)]
    fn next(&mut self) -> Option<u64> {
        let _ = self.bits.len();
        let position = position_from(self.bits, self.bit, self.from)?;
        self.from = position + 1;
        Some(position as u64)
    }
}

// Returns the number of ones or zeros.
fn count_of<A: Allocator + Copy>(bits: &BitVec<A>, bit: bool) -> usize {
    if bit {
        bits.count_ones() as usize
    } else {
        bits.count_zeros() as usize
    }
}

// Returns the first position from `from` on of a one or a zero. `None` if there is none.
#[inline(always)]
fn position_from<A: Allocator + Copy>(bits: &BitVec<A>, bit: bool, from: usize) -> Option<usize> {
    let mut position = from;
    while position < bits.len() {
        if let Some(found) = position_in_limb(bits, bit, position) {
            return Some(found);
        }
        position = 64 * (position / 64) + 64;
    }
    None
}

// Returns the first position from `position` on in its limb of a one or a zero. `None` if there is none.
#[inline(always)]
fn position_in_limb<A: Allocator + Copy>(
    bits: &BitVec<A>,
    bit: bool,
    position: usize,
) -> Option<usize> {
    let word = marks_of(bits, bit, position / 64) >> (position % 64);
    let skip = word.trailing_zeros() as usize;
    if skip < (bits.len() - position).min(64 - position % 64) {
        return Some(position + skip);
    }
    None
}

// Returns the start of the last limb that has a one or a zero, or 0 if none has.
fn last_start<A: Allocator + Copy>(bits: &BitVec<A>, bit: bool) -> usize {
    let mut k = bits.len().div_ceil(64);
    while k > 0 {
        k -= 1;
        if position_in_limb(bits, bit, 64 * k).is_some() {
            return 64 * k;
        }
    }
    0
}

// Returns the last of the numbers left, or 0 if none is left.
fn last_left<N: Numbers>(mut numbers: N) -> u64 {
    let mut last = 0;
    while let Some(number) = numbers.next() {
        last = number;
    }
    last
}

// Returns the word in which the ones or the zeros of a limb are ones.
fn marks_of<A: Allocator + Copy>(bits: &BitVec<A>, bit: bool, k: usize) -> u64 {
    let limb = bits.limb(k);
    if bit { limb } else { !limb }
}
