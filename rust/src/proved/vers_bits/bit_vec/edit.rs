//! Functions that change a list of bits in place or split it, and allocate only for a second half.

use crate::rattle::prelude::*;

use crate::proved::vers_bits::bit_vec::words::{cut, flip, put_bit};
use crate::proved::vers_bits::bit_vec::{BitVec, OutOfRange, SplitCause, SplitError};
use crate::rattle::Allocator;

impl<A: Allocator + Copy> BitVec<A> {
    // Keeps the first `len` bits.
    pub(super) fn truncate(&mut self, len: usize) {
        cut(&mut self.data, len);
        self.len = len;
    }

    /// Drops the last `n` bits, or all if there are fewer.
    pub fn drop_last(&mut self, n: usize) {
        let len = self.len();
        self.truncate(len.saturating_sub(n));
    }

    /// Flips the bit at `position`. Precondition: `position` is below the length.
    pub fn flip_bit(&mut self, position: usize) {
        flip(&mut self.data, position);
    }

    /// Flips the bit at `position`. Precondition: `position` is below the length.
    pub fn flip_bit_unchecked(&mut self, position: usize) {
        self.flip_bit(position);
    }

    /// Sets the bit at `position` to the lowest bit of `value`. Errors: `OutOfRange` if `position` is out of bounds;
    /// the list is then unchanged.
    pub fn set(&mut self, position: usize, value: u64) -> Result<(), OutOfRange> {
        if position >= self.len() {
            return Err(OutOfRange);
        }
        self.set_unchecked(position, value);
        Ok(())
    }

    /// Sets the bit at `position` to the lowest bit of `value`. Precondition: `position` is below the length.
    pub fn set_unchecked(&mut self, position: usize, value: u64) {
        put_bit(&mut self.data, position, value % 2 == 1);
    }

    /// Returns the first `at` bits, and the others. If `at` is 0 or the length, one list is empty and the call
    /// allocates nothing. If the allocator refuses a request, the error is the unchanged list. Precondition:
    /// `at` is at most the length.
    pub fn split_at_unchecked(mut self, at: usize) -> Result<(Self, Self), Self> {
        let mut rest = BitVec::new(self.allocator());
        if at == self.len() {
            return Ok((self, rest));
        }
        if at == 0 {
            return Ok((rest, self));
        }
        if rest.extend_from(&self, at).is_err() {
            return Err(self);
        }
        self.truncate(at);
        Ok((self, rest))
    }

    /// Returns the first `at` bits, and the others. If `at` is 0 or the length, one list is empty and the call
    /// allocates nothing.
    ///
    /// # Errors
    ///
    /// `OutOfRange` if `at` is above the length; `Memory` if the allocator refuses a request. The error
    /// contains the unchanged list.
    pub fn split_at(self, at: usize) -> Result<(Self, Self), SplitError<A>> {
        if at > self.len() {
            return Err(SplitError {
                vec: self,
                cause: SplitCause::OutOfRange,
            });
        }
        match self.split_at_unchecked(at) {
            Ok(halves) => Ok(halves),
            Err(vec) => Err(SplitError {
                vec,
                cause: SplitCause::Memory,
            }),
        }
    }
}
