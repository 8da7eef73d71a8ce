//! Two lists of bits of the same length, combined through a function on their limbs.

use crate::rattle::prelude::*;

use crate::proved::vers_bits::bit_vec::words::{cut, low_part};
use crate::proved::vers_bits::bit_vec::{BitVec, LengthMismatch};
use crate::rattle::AllocError;
use crate::rattle::Allocator;

/// Two lists of the same length and a closure on their limbs. Bit `p` is bit `p % 64` of what the closure
/// returns for both limbs `p / 64`. Contracts see both lists and the closure. They describe a result for each
/// definition `g` that the closure follows, through the list `masked g`.
pub struct MaskedBitVec<'a, 'b, F, A: Allocator + Copy> {
    left: &'a BitVec<A>,
    right: &'b BitVec<A>,
    mask: F,
}

impl<'a, 'b, F: Fn(u64, u64) -> u64, A: Allocator + Copy> MaskedBitVec<'a, 'b, F, A> {
    // Returns what the closure returns for both limbs `k`.
    fn answer(&self, k: usize) -> u64 {
        let mine = self.left.limb(k);
        let theirs = self.right.limb(k);
        (self.mask)(mine, theirs)
    }

    // Returns limb `k` of the masked list, with zeros past the length.
    fn limb(&self, k: usize) -> u64 {
        let rest = self.left.len() - 64 * k;
        low_part(self.answer(k), rest.min(64))
    }

    // Returns the number of ones in limb `k` of the masked list.
    fn ones_of_limb(&self, k: usize) -> u64 {
        self.limb(k).count_ones() as u64
    }

    // Returns the `n` bits from `position` as a number. Precondition: they are in one limb.
    fn part(&self, position: usize, n: usize) -> u64 {
        (self.limb(position / 64) >> (position % 64)) & (u64::MAX >> (64 - n))
    }

    /// Returns true if the bit at `position` is a one, or `None` if `position` is out of bounds.
    pub fn is_bit_set(&self, position: usize) -> Option<bool> {
        if position >= self.left.len() {
            return None;
        }
        Some(self.is_bit_set_unchecked(position))
    }

    /// Returns the bit at `position`, 1 or 0, or `None` if `position` is out of bounds.
    pub fn get(&self, position: usize) -> Option<u64> {
        if position >= self.left.len() {
            return None;
        }
        Some(self.get_unchecked(position))
    }

    /// Returns true if the bit at `position` is a one. Precondition: `position` is below the length.
    pub fn is_bit_set_unchecked(&self, position: usize) -> bool {
        (self.answer(position / 64) >> (position % 64)) & 1 == 1
    }

    /// Returns the bit at `position`, 1 or 0. Precondition: `position` is below the length.
    pub fn get_unchecked(&self, position: usize) -> u64 {
        u64::from(self.is_bit_set_unchecked(position))
    }

    /// Returns the `n` bits from `position` on as a number. `None` if there are fewer, or `n` is 0 or above
    /// 64.
    pub fn get_bits(&self, position: usize, n: usize) -> Option<u64> {
        let len = self.left.len();
        if n == 0 || n > 64 || position > len || n > len - position {
            return None;
        }
        Some(self.get_bits_unchecked(position, n))
    }

    /// Returns the `n` bits from `position` on as a number: 0 if `n` is 0. Precondition: `n` is at most 64,
    /// and `position + n` at most the length.
    pub fn get_bits_unchecked(&self, position: usize, n: usize) -> u64 {
        let len = self.left.len();
        if n == 0 || position >= len {
            return 0;
        }
        let room = 64 - position % 64;
        if n <= room {
            return self.part(position, n);
        }
        self.part(position, room) | (self.part(position + room, n - room) << room)
    }

    /// Returns the number of ones.
    pub fn count_ones(&self) -> u64 {
        let mut ones: u64 = 0;
        for k in 0..self.left.len().div_ceil(64) {
            ones += self.ones_of_limb(k);
        }
        ones
    }

    /// Returns the number of zeros.
    pub fn count_zeros(&self) -> u64 {
        self.left.len() as u64 - self.count_ones()
    }

    /// Returns a new list of the bits. Errors: `AllocError` if the allocator refuses a request.
    pub fn to_bit_vec(&self) -> Result<BitVec<A>, AllocError> {
        let mut bits = self.left.clone()?;
        bits.combine(self.right, &self.mask);
        Ok(bits)
    }
}

impl<A: Allocator + Copy> BitVec<A> {
    // Replaces each limb by what a closure returns for both limbs, and clears the bits past the length.
    fn combine<F: Fn(u64, u64) -> u64>(&mut self, other: &BitVec<A>, mask: &F) {
        combine_words(&mut self.data, other.limbs(), mask);
        cut(&mut self.data, self.len);
    }

    /// Returns both lists combined through a closure on their limbs. Precondition: the closure may be called on
    /// every pair of limbs. Errors: `LengthMismatch` if their lengths differ.
    pub fn mask_custom<'a, 'b, F: Fn(u64, u64) -> u64>(
        &'a self,
        other: &'b BitVec<A>,
        mask: F,
    ) -> Result<MaskedBitVec<'a, 'b, F, A>, LengthMismatch> {
        if self.len() != other.len() {
            return Err(LengthMismatch);
        }
        Ok(MaskedBitVec {
            left: self,
            right: other,
            mask,
        })
    }
}

/// How two limbs are combined.
#[derive(Clone, Copy)]
enum MaskKind {
    Or,
    And,
    Xor,
}

impl MaskKind {
    fn combine(self, x: u64, y: u64) -> u64 {
        match self {
            MaskKind::Or => x | y,
            MaskKind::And => x & y,
            MaskKind::Xor => x ^ y,
        }
    }
}

/// Two lists of the same length combined bit by bit, by or, and or xor. Contracts see the list of the bits.
pub struct BitMask<'s, 'b, A: Allocator + Copy> {
    left: &'s BitVec<A>,
    right: &'b BitVec<A>,
    kind: MaskKind,
}

impl<'s, 'b, A: Allocator + Copy> BitMask<'s, 'b, A> {
    /// Returns true if the bit at `position` is a one, or `None` if `position` is out of bounds.
    pub fn is_bit_set(&self, position: usize) -> Option<bool> {
        let kind = self.kind;
        MaskedBitVec {
            left: self.left,
            right: self.right,
            mask: |x: u64, y: u64| kind.combine(x, y),
        }
        .is_bit_set(position)
    }

    /// Returns the bit at `position`, 1 or 0, or `None` if `position` is out of bounds.
    pub fn get(&self, position: usize) -> Option<u64> {
        let kind = self.kind;
        MaskedBitVec {
            left: self.left,
            right: self.right,
            mask: |x: u64, y: u64| kind.combine(x, y),
        }
        .get(position)
    }

    /// Returns true if the bit at `position` is a one. Precondition: `position` is below the length.
    pub fn is_bit_set_unchecked(&self, position: usize) -> bool {
        let kind = self.kind;
        MaskedBitVec {
            left: self.left,
            right: self.right,
            mask: |x: u64, y: u64| kind.combine(x, y),
        }
        .is_bit_set_unchecked(position)
    }

    /// Returns the bit at `position`, 1 or 0. Precondition: `position` is below the length.
    pub fn get_unchecked(&self, position: usize) -> u64 {
        let kind = self.kind;
        MaskedBitVec {
            left: self.left,
            right: self.right,
            mask: |x: u64, y: u64| kind.combine(x, y),
        }
        .get_unchecked(position)
    }

    /// Returns the `n` bits from `position` on as a number. `None` if there are fewer, or `n` is 0 or above
    /// 64.
    pub fn get_bits(&self, position: usize, n: usize) -> Option<u64> {
        let kind = self.kind;
        MaskedBitVec {
            left: self.left,
            right: self.right,
            mask: |x: u64, y: u64| kind.combine(x, y),
        }
        .get_bits(position, n)
    }

    /// Returns the `n` bits from `position` on as a number: 0 if `n` is 0. Precondition: `n` is at most 64,
    /// and `position + n` at most the length.
    pub fn get_bits_unchecked(&self, position: usize, n: usize) -> u64 {
        let kind = self.kind;
        MaskedBitVec {
            left: self.left,
            right: self.right,
            mask: |x: u64, y: u64| kind.combine(x, y),
        }
        .get_bits_unchecked(position, n)
    }

    /// Returns the number of ones.
    pub fn count_ones(&self) -> u64 {
        let kind = self.kind;
        MaskedBitVec {
            left: self.left,
            right: self.right,
            mask: |x: u64, y: u64| kind.combine(x, y),
        }
        .count_ones()
    }

    /// Returns the number of zeros.
    pub fn count_zeros(&self) -> u64 {
        let kind = self.kind;
        MaskedBitVec {
            left: self.left,
            right: self.right,
            mask: |x: u64, y: u64| kind.combine(x, y),
        }
        .count_zeros()
    }

    /// Returns a new list of the bits. Errors: `AllocError` if the allocator refuses a request.
    pub fn to_bit_vec(&self) -> Result<BitVec<A>, AllocError> {
        let kind = self.kind;
        MaskedBitVec {
            left: self.left,
            right: self.right,
            mask: |x: u64, y: u64| kind.combine(x, y),
        }
        .to_bit_vec()
    }

    /// Returns the same mask. Allocates nothing.
    pub fn clone(&self) -> Self {
        BitMask {
            left: self.left,
            right: self.right,
            kind: self.kind,
        }
    }
}

impl<A: Allocator + Copy> BitVec<A> {
    // Returns both lists combined by a kind of mask.
    fn mask_by<'s, 'b>(
        &'s self,
        other: &'b BitVec<A>,
        kind: MaskKind,
    ) -> Result<BitMask<'s, 'b, A>, LengthMismatch> {
        if self.len() != other.len() {
            return Err(LengthMismatch);
        }
        Ok(BitMask {
            left: self,
            right: other,
            kind,
        })
    }

    /// Returns the bitwise or of both lists. Errors: `LengthMismatch` if their lengths differ.
    pub fn mask_or<'s, 'b>(
        &'s self,
        other: &'b BitVec<A>,
    ) -> Result<BitMask<'s, 'b, A>, LengthMismatch> {
        self.mask_by(other, MaskKind::Or)
    }

    /// Returns the bitwise and of both lists. Errors: `LengthMismatch` if their lengths differ.
    pub fn mask_and<'s, 'b>(
        &'s self,
        other: &'b BitVec<A>,
    ) -> Result<BitMask<'s, 'b, A>, LengthMismatch> {
        self.mask_by(other, MaskKind::And)
    }

    /// Returns the bitwise xor of both lists. Errors: `LengthMismatch` if their lengths differ.
    pub fn mask_xor<'s, 'b>(
        &'s self,
        other: &'b BitVec<A>,
    ) -> Result<BitMask<'s, 'b, A>, LengthMismatch> {
        self.mask_by(other, MaskKind::Xor)
    }

    // Replaces each limb by what a closure returns for both limbs, and clears the bits past the length. Errors:
    // `LengthMismatch` if the lengths differ; the list is then unchanged.
    fn apply<F: Fn(u64, u64) -> u64>(
        &mut self,
        other: &BitVec<A>,
        mask: &F,
    ) -> Result<(), LengthMismatch> {
        if self.len() != other.len() {
            return Err(LengthMismatch);
        }
        self.combine(other, mask);
        Ok(())
    }

    /// Replaces the list by its bitwise or with the other. Errors: `LengthMismatch` if their lengths differ;
    /// the list is then unchanged.
    pub fn apply_mask_or(&mut self, other: &BitVec<A>) -> Result<(), LengthMismatch> {
        self.apply(other, &|x: u64, y: u64| x | y)
    }

    /// Replaces the list by its bitwise and with the other. Errors: `LengthMismatch` if their lengths differ;
    /// the list is then unchanged.
    pub fn apply_mask_and(&mut self, other: &BitVec<A>) -> Result<(), LengthMismatch> {
        self.apply(other, &|x: u64, y: u64| x & y)
    }

    /// Replaces the list by its bitwise xor with the other. Errors: `LengthMismatch` if their lengths differ;
    /// the list is then unchanged.
    pub fn apply_mask_xor(&mut self, other: &BitVec<A>) -> Result<(), LengthMismatch> {
        self.apply(other, &|x: u64, y: u64| x ^ y)
    }

    /// Replaces each limb by what a function returns for both limbs, and clears the bits past the length.
    /// Precondition: the function may be called on every pair of limbs. Errors: `LengthMismatch` if the lengths
    /// differ; the list is then unchanged.
    pub fn apply_mask_custom(
        &mut self,
        other: &BitVec<A>,
        mask: fn(u64, u64) -> u64,
    ) -> Result<(), LengthMismatch> {
        self.apply(other, &mask)
    }
}

// Replaces each word by what a closure returns for it and the other slice's word at its position.
fn combine_words<F: Fn(u64, u64) -> u64, A: Allocator + Copy>(
    words: &mut Vec<u64, A>,
    others: &[u64],
    mask: &F,
) {
    for k in 0..others.len() {
        let mine = words[k];
        words[k] = mask(mine, others[k]);
    }
}
