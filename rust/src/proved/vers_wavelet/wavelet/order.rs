//! Quantiles: elements of a range by size.

use crate::rattle::prelude::*;

use crate::proved::vers_wavelet::wavelet::WaveletMatrix;
use crate::rattle::AllocError;
use crate::rattle::Allocator;
use std::ops::Range;
use crate::proved::vers_bits::bit_vec::BitVec;
use crate::proved::vers_tally::tally::Tally;

impl<A: Allocator + Copy> WaveletMatrix<A> {
    /// Returns the `i`-th smallest symbol of a range (from 0, counting duplicates). `None` if the range ends
    /// past the end or has at most `i` positions. Errors: `AllocError` if the allocator refuses a request.
    pub fn quantile(&self, range: Range<usize>, i: usize) -> Result<Option<BitVec<A>>, AllocError> {
        let mut tally = Tally::new();
        self.quantile_counted(range, i, &mut tally)
    }

    /// Returns `quantile(..)`. Reads at most two ranks of each level: `2k` rank calls for symbols of `k` bits.
    #[inline(always)]
    pub fn quantile_counted(
        &self,
        range: Range<usize>,
        i: usize,
        tally: &mut Tally,
    ) -> Result<Option<BitVec<A>>, AllocError> {
        if range.end > self.len() || range.start >= range.end || i >= range.end - range.start {
            return Ok(None);
        }
        let mut answer = self.zero_symbol()?;
        self.kth_in(range.start, range.end, i, &mut answer, tally);
        Ok(Some(answer))
    }

    /// Returns the `i`-th smallest symbol of a range (from 0, counting duplicates). Precondition: the range is
    /// within the list and has more than `i` positions. Errors: `AllocError` if the allocator refuses a
    /// request.
    pub fn quantile_unchecked(&self, range: Range<usize>, i: usize) -> Result<BitVec<A>, AllocError> {
        let mut tally = Tally::new();
        let mut answer = self.zero_symbol()?;
        self.kth_in(range.start, range.end, i, &mut answer, &mut tally);
        Ok(answer)
    }

    /// Returns the `i`-th smallest symbol (from 0, counting duplicates), or `None` if there are at most `i`.
    /// Errors: `AllocError` if the allocator refuses a request.
    pub fn get_sorted(&self, i: usize) -> Result<Option<BitVec<A>>, AllocError> {
        let mut tally = Tally::new();
        self.get_sorted_counted(i, &mut tally)
    }

    /// Returns `get_sorted(i)`. Reads at most two ranks of each level: `2k` rank calls for symbols of `k` bits.
    #[inline(always)]
    pub fn get_sorted_counted(
        &self,
        i: usize,
        tally: &mut Tally,
    ) -> Result<Option<BitVec<A>>, AllocError> {
        self.quantile_counted(0..self.len(), i, tally)
    }

    /// Returns the `i`-th smallest symbol (from 0, counting duplicates). Precondition: `i` is below the length.
    /// Errors: `AllocError` if the allocator refuses a request.
    pub fn get_sorted_unchecked(&self, i: usize) -> Result<BitVec<A>, AllocError> {
        self.quantile_unchecked(0..self.len(), i)
    }

    /// Returns the least symbol of a range. `None` if the range is empty, reversed or ends past the end.
    /// Errors: `AllocError` if the allocator refuses a request.
    pub fn range_min(&self, range: Range<usize>) -> Result<Option<BitVec<A>>, AllocError> {
        let mut tally = Tally::new();
        self.range_min_counted(range, &mut tally)
    }

    /// Returns `range_min(range)`. Reads at most two ranks of each level: `2k` rank calls for symbols of `k`
    /// bits.
    #[inline(always)]
    pub fn range_min_counted(
        &self,
        range: Range<usize>,
        tally: &mut Tally,
    ) -> Result<Option<BitVec<A>>, AllocError> {
        self.quantile_counted(range, 0, tally)
    }

    /// Returns the least symbol of a range. Precondition: the range is within the list, and not empty. Errors:
    /// `AllocError` if the allocator refuses a request.
    pub fn range_min_unchecked(&self, range: Range<usize>) -> Result<BitVec<A>, AllocError> {
        self.quantile_unchecked(range, 0)
    }

    /// Returns the greatest symbol of a range. `None` if the range is empty, reversed or ends past the end.
    /// Errors: `AllocError` if the allocator refuses a request.
    pub fn range_max(&self, range: Range<usize>) -> Result<Option<BitVec<A>>, AllocError> {
        let mut tally = Tally::new();
        self.range_max_counted(range, &mut tally)
    }

    /// Returns `range_max(range)`. Reads at most two ranks of each level: `2k` rank calls for symbols of `k`
    /// bits.
    #[inline(always)]
    pub fn range_max_counted(
        &self,
        range: Range<usize>,
        tally: &mut Tally,
    ) -> Result<Option<BitVec<A>>, AllocError> {
        if range.start >= range.end {
            return Ok(None);
        }
        let last = range.end - range.start - 1;
        self.quantile_counted(range, last, tally)
    }

    /// Returns the greatest symbol of a range. Precondition: the range is within the list, and not empty.
    /// Errors: `AllocError` if the allocator refuses a request.
    pub fn range_max_unchecked(&self, range: Range<usize>) -> Result<BitVec<A>, AllocError> {
        let last = range.end - range.start - 1;
        self.quantile_unchecked(range, last)
    }

    /// Returns the median symbol of a range, the lower one of two. `None` if the range is empty, reversed or
    /// ends past the end. Errors: `AllocError` if the allocator refuses a request.
    pub fn range_median(&self, range: Range<usize>) -> Result<Option<BitVec<A>>, AllocError> {
        let mut tally = Tally::new();
        self.range_median_counted(range, &mut tally)
    }

    /// Returns `range_median(range)`. Reads at most two ranks of each level: `2k` rank calls for symbols of `k`
    /// bits.
    #[inline(always)]
    pub fn range_median_counted(
        &self,
        range: Range<usize>,
        tally: &mut Tally,
    ) -> Result<Option<BitVec<A>>, AllocError> {
        if range.start >= range.end {
            return Ok(None);
        }
        let middle = (range.end - 1 - range.start) / 2;
        self.quantile_counted(range, middle, tally)
    }

    /// Returns the median symbol of a range, the lower one of two. Precondition: the range is within the list,
    /// and not empty. Errors: `AllocError` if the allocator refuses a request.
    pub fn range_median_unchecked(&self, range: Range<usize>) -> Result<BitVec<A>, AllocError> {
        let middle = (range.end - 1 - range.start) / 2;
        self.quantile_unchecked(range, middle)
    }

    /// Returns the `i`-th smallest symbol of a range (from 0, counting duplicates). `None` if the symbols have
    /// more than 64 bits, or the range ends past the end or has at most `i` positions.
    pub fn quantile_u64(&self, range: Range<usize>, i: usize) -> Option<u64> {
        let mut tally = Tally::new();
        self.quantile_u64_counted(range, i, &mut tally)
    }

    /// Returns `quantile_u64(..)`. Reads at most two ranks of each level: `2k` rank calls for symbols of `k`
    /// bits.
    #[inline(always)]
    pub fn quantile_u64_counted(
        &self,
        range: Range<usize>,
        i: usize,
        tally: &mut Tally,
    ) -> Option<u64> {
        if !self.fits_word()
            || range.end > self.len()
            || range.start >= range.end
            || i >= range.end - range.start
        {
            return None;
        }
        let mut answer: u64 = 0;
        self.kth_in(range.start, range.end, i, &mut answer, tally);
        Some(answer)
    }

    /// Returns the `i`-th smallest symbol of a range (from 0, counting duplicates). Precondition: the range is
    /// within the list and has more than `i` positions, and the symbols have at most 64 bits.
    pub fn quantile_u64_unchecked(&self, range: Range<usize>, i: usize) -> u64 {
        let mut tally = Tally::new();
        let mut answer: u64 = 0;
        self.kth_in(range.start, range.end, i, &mut answer, &mut tally);
        answer
    }

    /// Returns the `i`-th smallest symbol (from 0, counting duplicates). `None` if the symbols have more than
    /// 64 bits, or there are at most `i`.
    pub fn get_sorted_u64(&self, i: usize) -> Option<u64> {
        let mut tally = Tally::new();
        self.get_sorted_u64_counted(i, &mut tally)
    }

    /// Returns `get_sorted_u64(i)`. Reads at most two ranks of each level: `2k` rank calls for symbols of `k`
    /// bits.
    #[inline(always)]
    pub fn get_sorted_u64_counted(&self, i: usize, tally: &mut Tally) -> Option<u64> {
        self.quantile_u64_counted(0..self.len(), i, tally)
    }

    /// Returns the `i`-th smallest symbol (from 0, counting duplicates). Precondition: `i` is below the length,
    /// and the symbols have at most 64 bits.
    pub fn get_sorted_u64_unchecked(&self, i: usize) -> u64 {
        self.quantile_u64_unchecked(0..self.len(), i)
    }

    /// Returns the least symbol of a range. `None` if the symbols have more than 64 bits, or the range is
    /// empty, reversed or ends past the end.
    pub fn range_min_u64(&self, range: Range<usize>) -> Option<u64> {
        let mut tally = Tally::new();
        self.range_min_u64_counted(range, &mut tally)
    }

    /// Returns `range_min_u64(range)`. Reads at most two ranks of each level: `2k` rank calls for symbols of
    /// `k` bits.
    #[inline(always)]
    pub fn range_min_u64_counted(&self, range: Range<usize>, tally: &mut Tally) -> Option<u64> {
        self.quantile_u64_counted(range, 0, tally)
    }

    /// Returns the least symbol of a range. Precondition: the range is within the list, and not empty, and the
    /// symbols have at most 64 bits.
    pub fn range_min_u64_unchecked(&self, range: Range<usize>) -> u64 {
        self.quantile_u64_unchecked(range, 0)
    }

    /// Returns the greatest symbol of a range. `None` if the symbols have more than 64 bits, or the range is
    /// empty, reversed or ends past the end.
    pub fn range_max_u64(&self, range: Range<usize>) -> Option<u64> {
        let mut tally = Tally::new();
        self.range_max_u64_counted(range, &mut tally)
    }

    /// Returns `range_max_u64(range)`. Reads at most two ranks of each level: `2k` rank calls for symbols of
    /// `k` bits.
    #[inline(always)]
    pub fn range_max_u64_counted(&self, range: Range<usize>, tally: &mut Tally) -> Option<u64> {
        if range.start >= range.end {
            return None;
        }
        let last = range.end - range.start - 1;
        self.quantile_u64_counted(range, last, tally)
    }

    /// Returns the greatest symbol of a range. Precondition: the range is within the list, and not empty, and
    /// the symbols have at most 64 bits.
    pub fn range_max_u64_unchecked(&self, range: Range<usize>) -> u64 {
        let last = range.end - range.start - 1;
        self.quantile_u64_unchecked(range, last)
    }

    /// Returns the median symbol of a range, the lower one of two. `None` if the symbols have more than 64
    /// bits, or the range is empty, reversed or ends past the end.
    pub fn range_median_u64(&self, range: Range<usize>) -> Option<u64> {
        let mut tally = Tally::new();
        self.range_median_u64_counted(range, &mut tally)
    }

    /// Returns `range_median_u64(range)`. Reads at most two ranks of each level: `2k` rank calls for symbols of
    /// `k` bits.
    #[inline(always)]
    pub fn range_median_u64_counted(&self, range: Range<usize>, tally: &mut Tally) -> Option<u64> {
        if range.start >= range.end {
            return None;
        }
        let middle = (range.end - 1 - range.start) / 2;
        self.quantile_u64_counted(range, middle, tally)
    }

    /// Returns the median symbol of a range, the lower one of two. Precondition: the range is within the list,
    /// and not empty, and the symbols have at most 64 bits.
    pub fn range_median_u64_unchecked(&self, range: Range<usize>) -> u64 {
        let middle = (range.end - 1 - range.start) / 2;
        self.quantile_u64_unchecked(range, middle)
    }
}
