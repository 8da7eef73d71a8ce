//! Queries of a wavelet matrix for symbols of both kinds.

use crate::rattle::prelude::*;

use crate::proved::vers_wavelet::wavelet::WaveletMatrix;
use crate::proved::vers_wavelet::wavelet::digits::Digits;
use crate::proved::vers_wavelet::wavelet::nearest::find_nearest;
use crate::proved::vers_wavelet::wavelet::walk::{climb, descend, find_kth, narrow, read_symbol};
use crate::proved::vers_wavelet::wavelet::way::{Found, Way};
use crate::rattle::AllocError;
use crate::rattle::Allocator;
use crate::proved::vers_bits::bit_vec::BitVec;
use crate::proved::vers_tally::tally::Tally;

impl<A: Allocator + Copy> WaveletMatrix<A> {
    // Returns a symbol that is 0.
    pub(super) fn zero_symbol(&self) -> Result<BitVec<A>, AllocError> {
        let alloc = *self.levels.allocator();
        BitVec::from_zeros(alloc, self.bits_per_element()).map_err(|_| AllocError)
    }

    // Returns the number of occurrences of a symbol in a range.
    #[inline(always)]
    pub(super) fn count_in<D: Digits>(
        &self,
        start: usize,
        end: usize,
        symbol: &D,
        tally: &mut Tally,
    ) -> usize {
        let part = narrow(self.levels(), self.len(), start, end, symbol, tally);
        part.end - part.start
    }

    // Returns the position of occurrence `rank` of a symbol from a position on.
    #[inline(always)]
    pub(super) fn find_from<D: Digits>(
        &self,
        offset: usize,
        rank: usize,
        symbol: &D,
        tally: &mut Tally,
    ) -> Option<usize> {
        let levels = self.levels();
        let len = self.len();
        let first = descend(levels, len, offset, symbol, tally);
        if rank >= len - first {
            return None;
        }
        climb(levels, len, symbol, first + rank, tally)
    }

    // Does the same, but returns the length if there are fewer.
    #[inline(always)]
    pub(super) fn position_from<D: Digits>(&self, offset: usize, rank: usize, symbol: &D) -> usize {
        let mut tally = Tally::new();
        self.find_from(offset, rank, symbol, &mut tally)
            .unwrap_or(self.len())
    }

    // Writes the symbol at a position into a number that is 0.
    #[inline(always)]
    pub(super) fn read_at<D: Digits>(&self, position: usize, answer: &mut D, tally: &mut Tally) {
        read_symbol(self.levels(), self.len(), position, answer, tally);
    }

    // Writes the `i`-th smallest element of a range into a number that is 0.
    #[inline(always)]
    pub(super) fn kth_in<D: Digits>(
        &self,
        start: usize,
        end: usize,
        i: usize,
        answer: &mut D,
        tally: &mut Tally,
    ) {
        find_kth(self.levels(), self.len(), start, end, i, answer, tally);
    }

    // Returns the `i`-th smallest symbol, and which elements by size are equal to it. It continues from the path
    // down to the last one found.
    #[inline(always)]
    pub(super) fn find_by_size(&self, way: &mut Way, i: usize, tally: &mut Tally) -> Found {
        way.find(self.levels(), self.len(), i, tally)
    }

    // Writes the `i`-th smallest symbol into a number that is 0 if `by_size`, otherwise the symbol at position
    // `i`.
    #[inline(always)]
    pub(super) fn element<D: Digits>(
        &self,
        by_size: bool,
        i: usize,
        answer: &mut D,
        tally: &mut Tally,
    ) {
        if by_size {
            self.kth_in(0, self.len(), i, answer, tally);
            return;
        }
        self.read_at(i, answer, tally);
    }

    // Returns true if a range has a symbol that is at least a symbol, or, if `is_up` is false, one that is at
    // most it; and writes the nearest of these into a number that is 0. It is the symbol itself if the range
    // has it.
    #[inline(always)]
    pub(super) fn nearest_in<D: Digits>(
        &self,
        is_up: bool,
        start: usize,
        end: usize,
        symbol: &D,
        answer: &mut D,
        tally: &mut Tally,
    ) -> bool {
        find_nearest(
            self.levels(),
            self.len(),
            start,
            end,
            is_up,
            symbol,
            answer,
            tally,
        )
    }
}
