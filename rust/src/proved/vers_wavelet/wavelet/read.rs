//! Access: the symbol at a position.

use crate::rattle::prelude::*;

use crate::proved::vers_wavelet::wavelet::WaveletMatrix;
use crate::rattle::AllocError;
use crate::rattle::Allocator;
use crate::proved::vers_bits::bit_vec::BitVec;
use crate::proved::vers_tally::tally::Tally;

impl<A: Allocator + Copy> WaveletMatrix<A> {
    /// Returns the symbol at `position`, or `None` if `position` is out of bounds. Errors: `AllocError` if the
    /// allocator refuses a request.
    pub fn get_value(&self, position: usize) -> Result<Option<BitVec<A>>, AllocError> {
        let mut tally = Tally::new();
        self.get_value_counted(position, &mut tally)
    }

    /// Returns `get_value(position)`. Reads at most two ranks of each level: `2k` rank calls for symbols of `k`
    /// bits.
    #[inline(always)]
    pub fn get_value_counted(
        &self,
        position: usize,
        tally: &mut Tally,
    ) -> Result<Option<BitVec<A>>, AllocError> {
        if position >= self.len() {
            return Ok(None);
        }
        let mut answer = self.zero_symbol()?;
        self.read_at(position, &mut answer, tally);
        Ok(Some(answer))
    }

    /// Returns the symbol at `position`. Precondition: `position` is below the length. Errors: `AllocError` if the
    /// allocator refuses a request.
    pub fn get_value_unchecked(&self, position: usize) -> Result<BitVec<A>, AllocError> {
        let mut tally = Tally::new();
        let mut answer = self.zero_symbol()?;
        self.read_at(position, &mut answer, &mut tally);
        Ok(answer)
    }

    /// Returns the symbol at `position`. `None` if the symbols have more than 64 bits, or `position` is out of bounds.
    pub fn get_u64(&self, position: usize) -> Option<u64> {
        let mut tally = Tally::new();
        self.get_u64_counted(position, &mut tally)
    }

    /// Returns `get_u64(position)`. Reads at most two ranks of each level: `2k` rank calls for symbols of `k` bits.
    #[inline(always)]
    pub fn get_u64_counted(&self, position: usize, tally: &mut Tally) -> Option<u64> {
        if !self.fits_word() || position >= self.len() {
            return None;
        }
        let mut answer: u64 = 0;
        self.read_at(position, &mut answer, tally);
        Some(answer)
    }

    /// Returns the symbol at `position`. Precondition: `position` is below the length, and the symbols have at most
    /// 64 bits.
    pub fn get_u64_unchecked(&self, position: usize) -> u64 {
        let mut tally = Tally::new();
        let mut answer: u64 = 0;
        self.read_at(position, &mut answer, &mut tally);
        answer
    }
}
