//! A list of bits under a mask.

use super::BitVec;
use crate::contracts::contract;
use crate::error::{granted, no_bit, no_bits};
use crate::proved::vers_bits::bit_vec::{mask, LengthMismatch};
use crate::rattle::Global;
use std::fmt;

/// A view of a list of bits and a mask of the same length, whose limbs a function combines whenever they are read.
/// Nothing is stored.
///
/// If the function panics, so does the call, and both lists stay as they are.
///
/// ```
/// use vers_vecs::BitVec;
///
/// let (bits, mask) = (BitVec::from_bits(&[0, 1, 1, 0]), BitVec::from_bits(&[1, 1, 0, 0]));
/// let both = bits.mask_and(&mask).unwrap();
/// assert_eq!(both.get(1), Some(1));
/// assert_eq!(both.count_ones(), 1);
/// ```
#[derive(Clone)]
pub struct MaskedBitVec<'a, 'b, F: Fn(u64, u64) -> u64> {
    vec: &'a BitVec,
    mask: &'b BitVec,
    bin_op: F,
}

impl<F: Fn(u64, u64) -> u64> fmt::Debug for MaskedBitVec<'_, '_, F> {
    fn fmt(&self, f: &mut fmt::Formatter<'_>) -> fmt::Result {
        let bits = (0..self.vec.len()).map(|position| self.get(position).unwrap_or(0));
        crate::items::show(f, "MaskedBitVec", "bits", self.vec.len() as u64, bits)
    }
}

impl<'a, 'b, F: Fn(u64, u64) -> u64> MaskedBitVec<'a, 'b, F> {
    pub(crate) fn new(vec: &'a BitVec, mask: &'b BitVec, bin_op: F) -> Result<Self, String> {
        if vec.len() == mask.len() {
            Ok(MaskedBitVec { vec, mask, bin_op })
        } else {
            Err(LengthMismatch.to_string())
        }
    }

    /// Returns the proved list, which both lists and the function make.
    #[inline(always)]
    fn masked(&self) -> mask::MaskedBitVec<'a, 'b, &F, Global> {
        match self.vec.bits.mask_custom(&self.mask.bits, &self.bin_op) {
            Ok(masked) => masked,
            Err(_) => unreachable!("the lengths were compared"),
        }
    }

    /// Returns the bit at `position`, or `None` past the end.
    #[doc = contract!(MaskedBitVec::get)]
    #[must_use]
    #[inline]
    pub fn get(&self, position: usize) -> Option<u64> {
        self.masked().get(position)
    }

    /// Returns the bit at `position`.
    ///
    /// # Panics
    /// If `position` is past the end.
    #[doc = contract!(MaskedBitVec::get)]
    #[must_use]
    #[inline]
    #[track_caller]
    pub fn get_unchecked(&self, position: usize) -> u64 {
        match self.masked().get(position) {
            Some(found) => found,
            None => no_bit(position),
        }
    }

    /// Returns true if the bit at `position` is a one, or `None` past the end.
    #[doc = contract!(MaskedBitVec::is_bit_set)]
    #[must_use]
    #[inline]
    pub fn is_bit_set(&self, position: usize) -> Option<bool> {
        self.masked().is_bit_set(position)
    }

    /// Returns true if the bit at `position` is a one.
    ///
    /// # Panics
    /// If `position` is past the end.
    #[doc = contract!(MaskedBitVec::is_bit_set)]
    #[must_use]
    #[inline]
    #[track_caller]
    pub fn is_bit_set_unchecked(&self, position: usize) -> bool {
        match self.masked().is_bit_set(position) {
            Some(found) => found,
            None => no_bit(position),
        }
    }

    /// Returns the `n` bits from `position` on as a number, the first bit lowest. `None` if the list has fewer, or `n` is
    /// 0 or above 64.
    #[doc = contract!(MaskedBitVec::get_bits)]
    #[must_use]
    #[inline]
    pub fn get_bits(&self, position: usize, n: usize) -> Option<u64> {
        self.masked().get_bits(position, n)
    }

    /// Returns the `n` bits from `position` on as a number, the first bit lowest: 0 for no bits.
    ///
    /// # Panics
    /// If the list has fewer, or `n` is above 64.
    #[doc = contract!(MaskedBitVec::get_bits)]
    #[must_use]
    #[inline]
    #[track_caller]
    pub fn get_bits_unchecked(&self, position: usize, n: usize) -> u64 {
        if n == 0 {
            return 0;
        }
        match self.masked().get_bits(position, n) {
            Some(found) => found,
            None => no_bits(position, n),
        }
    }

    /// Returns the number of zeros, in O(`len` / 64).
    #[doc = contract!(MaskedBitVec::count_zeros)]
    #[must_use]
    pub fn count_zeros(&self) -> u64 {
        self.masked().count_zeros()
    }

    /// Returns the number of ones, in O(`len` / 64).
    #[doc = contract!(MaskedBitVec::count_ones)]
    #[must_use]
    pub fn count_ones(&self) -> u64 {
        self.masked().count_ones()
    }

    /// Makes a list of the combined bits.
    #[doc = contract!(MaskedBitVec::to_bit_vec)]
    #[must_use]
    #[track_caller]
    pub fn to_bit_vec(&self) -> BitVec {
        BitVec { bits: granted(self.masked().to_bit_vec()) }
    }
}
