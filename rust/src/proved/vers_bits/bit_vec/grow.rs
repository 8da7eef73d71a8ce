//! Functions that append to a list of bits.

use crate::rattle::prelude::*;

use crate::proved::vers_bits::bit_vec::words::{add_bit, add_bits, add_within, add_zeros, low_part};
use crate::proved::vers_bits::bit_vec::{BitVec, GrowError, MAX_LEN};
use crate::rattle::AllocError;
use crate::rattle::Allocator;

// A list of bits, or a reference to one.
trait AsList<A: Allocator + Copy> {
    fn as_list(&self) -> &BitVec<A>;
}

impl<A: Allocator + Copy> AsList<A> for BitVec<A> {
    fn as_list(&self) -> &BitVec<A> {
        self
    }
}

impl<'a, A: Allocator + Copy> AsList<A> for &'a BitVec<A> {
    fn as_list(&self) -> &BitVec<A> {
        self
    }
}

impl<A: Allocator + Copy> BitVec<A> {
    /// Appends a bit. Allocates only if the length is a multiple of 64. The list is unchanged on error.
    ///
    /// # Errors
    ///
    /// `TooLong` if the length is `MAX_LEN`; `Memory` if the allocator refuses a request.
    pub fn append(&mut self, bit: bool) -> Result<(), GrowError> {
        add_bit(&mut self.data, self.len, bit)?;
        self.len += 1;
        Ok(())
    }

    /// Appends the lowest bit of a number. Errors as for `append`.
    pub fn append_bit(&mut self, number: u64) -> Result<(), GrowError> {
        self.append(number % 2 == 1)
    }

    /// Appends the low `len` bits of a number, least significant first. Allocates nothing if `len` is 0 or the
    /// last limb has room. The list is unchanged on error. Precondition: `len` is at most 64.
    ///
    /// # Errors
    ///
    /// `TooLong` if the list would exceed `MAX_LEN` bits; `Memory` if the allocator refuses a request.
    pub fn append_bits(&mut self, bits: u64, len: usize) -> Result<(), GrowError> {
        if len > MAX_LEN - self.len() {
            return Err(GrowError::TooLong);
        }
        if len == 0 {
            return Ok(());
        }
        self.append_number(low_part(bits, len), len)?;
        Ok(())
    }

    /// Appends the low `len` bits of a number, least significant first. Precondition: `len` is at most 64.
    /// Errors as for `append_bits`.
    pub fn append_bits_unchecked(&mut self, bits: u64, len: usize) -> Result<(), GrowError> {
        self.append_bits(bits, len)
    }

    // Appends the low `n` digits of a number, with zeros above its own. On error some of them may have been
    // appended.
    pub(super) fn append_digits(&mut self, number: u64, n: usize) -> Result<(), GrowError> {
        if n <= 64 {
            return self.append_bits(number, n);
        }
        if n > MAX_LEN - self.len() {
            return Err(GrowError::TooLong);
        }
        self.append_bits(number, 64)?;
        self.append_zeros(n - 64)?;
        Ok(())
    }

    // Appends the `n` digits of a number. Precondition: the last limb has room for them.
    pub(super) fn append_within(&mut self, bits: u64, n: usize) {
        if n == 0 {
            return;
        }
        add_within(&mut self.data, self.len, bits, n);
        self.len += n;
    }

    // Appends the `n` digits of a number.
    #[inline(always)]
    fn append_number(&mut self, number: u64, n: usize) -> Result<(), AllocError> {
        add_bits(&mut self.data, self.len, number, n)?;
        self.len += n;
        Ok(())
    }

    // Appends zeros.
    fn append_zeros(&mut self, n: usize) -> Result<(), AllocError> {
        add_zeros(&mut self.data, self.len, n)?;
        self.len += n;
        Ok(())
    }

    /// Appends the 64 bits of a number, least significant first. Errors as for `append_bits`.
    #[inline(always)]
    pub fn append_word(&mut self, word: u64) -> Result<(), GrowError> {
        if self.len() > MAX_LEN - 64 {
            return Err(GrowError::TooLong);
        }
        self.append_number(word, 64)?;
        Ok(())
    }

    /// Appends the lowest bit of a number. Errors as for `append`.
    pub fn append_bit_u8(&mut self, number: u8) -> Result<(), GrowError> {
        self.append_bit(u64::from(number))
    }

    /// Appends the lowest bit of a number. Errors as for `append`.
    pub fn append_bit_u16(&mut self, number: u16) -> Result<(), GrowError> {
        self.append_bit(u64::from(number))
    }

    /// Appends the lowest bit of a number. Errors as for `append`.
    pub fn append_bit_u32(&mut self, number: u32) -> Result<(), GrowError> {
        self.append_bit(u64::from(number))
    }

    // Appends the bits of another list from position `start`. On error some of them may have been appended.
    #[inline(always)]
    fn append_from(&mut self, other: &BitVec<A>, start: usize) -> Result<(), GrowError> {
        let added = other.len() - start;
        self.reserve(added)?;
        for k in 0..added / 64 {
            self.append_number(other.get_bits_unchecked(start + 64 * k, 64), 64)?;
        }
        let rest = added % 64;
        self.append_bits(other.get_bits_unchecked(start + (added - rest), rest), rest)
    }

    // Appends the bits of another list from position `start`. Inlined: for an empty list, or from position 0,
    // the compiler drops one of the two shifts of a limb.
    #[inline(always)]
    pub(super) fn extend_from(&mut self, other: &BitVec<A>, start: usize) -> Result<(), GrowError> {
        let len = self.len();
        if other.len() - start > MAX_LEN - len {
            return Err(GrowError::TooLong);
        }
        if self.append_from(other, start).is_err() {
            self.truncate(len);
            return Err(GrowError::Memory);
        }
        Ok(())
    }

    /// Appends all bits of another list. The list is unchanged on error.
    ///
    /// # Errors
    ///
    /// `TooLong` if the list would exceed `MAX_LEN` bits; `Memory` if the allocator refuses a request.
    pub fn extend_bitvec(&mut self, other: &BitVec<A>) -> Result<(), GrowError> {
        self.extend_from(other, 0)
    }

    // Appends the remaining lists of an iterator. On error, the iterator has just passed the list that was not
    // appended.
    #[inline(always)]
    fn extend_by<L: AsList<A>, I: Iterator<Item = L>>(
        &mut self,
        lists: &mut I,
    ) -> Result<(), GrowError> {
        while let Some(list) = lists.next() {
            self.extend_bitvec(list.as_list())?;
        }
        Ok(())
    }

    /// Appends the lists of a finite iterator, in order. On error, the lists before the one that failed stay
    /// appended, and nothing of that one does.
    ///
    /// # Errors
    ///
    /// `TooLong` if the list would exceed `MAX_LEN` bits; `Memory` if the allocator refuses a request.
    pub fn extend<I: Iterator<Item = BitVec<A>>>(
        &mut self,
        mut lists: I,
    ) -> Result<(), GrowError> {
        self.extend_by(&mut lists)
    }

    /// Appends the lists of a finite iterator over references, in order. Errors as for `extend`.
    pub fn extend_ref<'a, I: Iterator<Item = &'a BitVec<A>>>(
        &mut self,
        mut lists: I,
    ) -> Result<(), GrowError>
    where
        A: 'a,
{
        self.extend_by(&mut lists)
    }

    // Reserves room for `added` more bits.
    fn reserve(&mut self, added: usize) -> Result<(), AllocError> {
        let words = (self.len() + added).div_ceil(64);
        self.data.reserve(words - self.data.len())
    }
}
