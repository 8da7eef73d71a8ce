//! Rank: the number of occurrences of a symbol.

use crate::rattle::prelude::*;

use crate::proved::vers_wavelet::wavelet::WaveletMatrix;
use crate::rattle::Allocator;
use std::ops::Range;
use crate::proved::vers_bits::bit_vec::BitVec;
use crate::proved::vers_tally::tally::Tally;

impl<A: Allocator + Copy> WaveletMatrix<A> {
    /// Returns the number of occurrences of a symbol in a range. `None` if the symbol has another width, or the
    /// range starts at or past the end, ends past it or is reversed.
    pub fn rank_range(&self, range: Range<usize>, symbol: &BitVec<A>) -> Option<usize> {
        let mut tally = Tally::new();
        self.rank_range_counted(range, symbol, &mut tally)
    }

    /// Returns `rank_range(..)`. Reads at most two ranks of each level: `2k` rank calls for symbols of `k` bits.
    #[inline(always)]
    pub fn rank_range_counted(
        &self,
        range: Range<usize>,
        symbol: &BitVec<A>,
        tally: &mut Tally,
    ) -> Option<usize> {
        let len = self.len();
        if symbol.len() != self.bits_per_element()
            || range.start >= len
            || range.end > len
            || range.start > range.end
        {
            return None;
        }
        Some(self.count_in(range.start, range.end, symbol, tally))
    }

    /// Returns the number of occurrences of a symbol in a range. Precondition: the range is within the list,
    /// and the symbol has the list's width.
    pub fn rank_range_unchecked(&self, range: Range<usize>, symbol: &BitVec<A>) -> usize {
        let mut tally = Tally::new();
        self.count_in(range.start, range.end, symbol, &mut tally)
    }

    /// Returns the number of occurrences of a symbol from position `offset` on, before `end`. `None` if the
    /// symbol has another width, `offset` is at or past the end of the list, or `end` is past it or before
    /// `offset`.
    pub fn rank_offset(&self, offset: usize, end: usize, symbol: &BitVec<A>) -> Option<usize> {
        let mut tally = Tally::new();
        self.rank_offset_counted(offset, end, symbol, &mut tally)
    }

    /// Returns `rank_offset(..)`. Reads at most two ranks of each level: `2k` rank calls for symbols of `k` bits.
    #[inline(always)]
    pub fn rank_offset_counted(
        &self,
        offset: usize,
        end: usize,
        symbol: &BitVec<A>,
        tally: &mut Tally,
    ) -> Option<usize> {
        self.rank_range_counted(offset..end, symbol, tally)
    }

    /// Returns the number of occurrences of a symbol from position `offset` on, before `end`. Precondition: the
    /// range is within the list, and the symbol has the list's width.
    pub fn rank_offset_unchecked(&self, offset: usize, end: usize, symbol: &BitVec<A>) -> usize {
        self.rank_range_unchecked(offset..end, symbol)
    }

    /// Returns the number of occurrences of a symbol in the first `end` positions. `None` if the symbol has
    /// another width, or there are fewer positions.
    pub fn rank(&self, end: usize, symbol: &BitVec<A>) -> Option<usize> {
        let mut tally = Tally::new();
        self.rank_counted(end, symbol, &mut tally)
    }

    /// Returns `rank(..)`. Reads at most two ranks of each level: `2k` rank calls for symbols of `k` bits.
    #[inline(always)]
    pub fn rank_counted(&self, end: usize, symbol: &BitVec<A>, tally: &mut Tally) -> Option<usize> {
        if symbol.len() != self.bits_per_element() || end > self.len() {
            return None;
        }
        Some(self.count_in(0, end, symbol, tally))
    }

    /// Returns the number of occurrences of a symbol in the first `end` positions. Precondition: `end` is at
    /// most the length, and the symbol has the list's width.
    pub fn rank_unchecked(&self, end: usize, symbol: &BitVec<A>) -> usize {
        self.rank_range_unchecked(0..end, symbol)
    }

    /// Returns the number of occurrences of a symbol in a range. Only the low bits of `symbol` count. `None` if
    /// the symbols have more than 64 bits, or the range starts at or past the end, ends past it or is reversed.
    pub fn rank_range_u64(&self, range: Range<usize>, symbol: u64) -> Option<usize> {
        let mut tally = Tally::new();
        self.rank_range_u64_counted(range, symbol, &mut tally)
    }

    /// Returns `rank_range_u64(..)`. Reads at most two ranks of each level: `2k` rank calls for symbols of `k`
    /// bits.
    #[inline(always)]
    pub fn rank_range_u64_counted(
        &self,
        range: Range<usize>,
        symbol: u64,
        tally: &mut Tally,
    ) -> Option<usize> {
        let len = self.len();
        if !self.fits_word() || range.start >= len || range.end > len || range.start > range.end {
            return None;
        }
        Some(self.count_in(range.start, range.end, &symbol, tally))
    }

    /// Returns the number of occurrences of a symbol in a range. Only the low bits of `symbol` count.
    /// Precondition: the range is within the list, and the symbols have at most 64 bits.
    pub fn rank_range_u64_unchecked(&self, range: Range<usize>, symbol: u64) -> usize {
        let mut tally = Tally::new();
        self.count_in(range.start, range.end, &symbol, &mut tally)
    }

    /// Returns the number of occurrences of a symbol from position `offset` on, before `end`. Only the low bits
    /// of `symbol` count. `None` if the symbols have more than 64 bits, `offset` is at or past the end of the
    /// list, or `end` is past it or before `offset`.
    pub fn rank_offset_u64(&self, offset: usize, end: usize, symbol: u64) -> Option<usize> {
        let mut tally = Tally::new();
        self.rank_offset_u64_counted(offset, end, symbol, &mut tally)
    }

    /// Returns `rank_offset_u64(..)`. Reads at most two ranks of each level: `2k` rank calls for symbols of `k`
    /// bits.
    #[inline(always)]
    pub fn rank_offset_u64_counted(
        &self,
        offset: usize,
        end: usize,
        symbol: u64,
        tally: &mut Tally,
    ) -> Option<usize> {
        self.rank_range_u64_counted(offset..end, symbol, tally)
    }

    /// Returns the number of occurrences of a symbol from position `offset` on, before `end`. Only the low bits
    /// of `symbol` count. Precondition: the range is within the list, and the symbols have at most 64 bits.
    pub fn rank_offset_u64_unchecked(&self, offset: usize, end: usize, symbol: u64) -> usize {
        self.rank_range_u64_unchecked(offset..end, symbol)
    }

    /// Returns the number of occurrences of a symbol in the first `end` positions. Only the low bits of
    /// `symbol` count. `None` if the symbols have more than 64 bits, or there are fewer positions.
    pub fn rank_u64(&self, end: usize, symbol: u64) -> Option<usize> {
        let mut tally = Tally::new();
        self.rank_u64_counted(end, symbol, &mut tally)
    }

    /// Returns `rank_u64(..)`. Reads at most two ranks of each level: `2k` rank calls for symbols of `k` bits.
    #[inline(always)]
    pub fn rank_u64_counted(&self, end: usize, symbol: u64, tally: &mut Tally) -> Option<usize> {
        if !self.fits_word() || end > self.len() {
            return None;
        }
        Some(self.count_in(0, end, &symbol, tally))
    }

    /// Returns the number of occurrences of a symbol in the first `end` positions. Only the low bits of
    /// `symbol` count. Precondition: `end` is at most the length, and the symbols have at most 64 bits.
    pub fn rank_u64_unchecked(&self, end: usize, symbol: u64) -> usize {
        self.rank_range_u64_unchecked(0..end, symbol)
    }
}
