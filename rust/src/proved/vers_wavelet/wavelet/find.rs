//! Select: the positions of a symbol.

use crate::rattle::prelude::*;

use crate::proved::vers_wavelet::wavelet::WaveletMatrix;
use crate::rattle::Allocator;
use crate::proved::vers_bits::bit_vec::BitVec;
use crate::proved::vers_tally::tally::Tally;

impl<A: Allocator + Copy> WaveletMatrix<A> {
    /// Returns the position of occurrence `rank` (from 0) of a symbol from position `offset` on. `None` if the
    /// symbol has another width, `offset` is at or past the end, or there are fewer occurrences.
    pub fn select_offset(&self, offset: usize, rank: usize, symbol: &BitVec<A>) -> Option<usize> {
        let mut tally = Tally::new();
        self.select_offset_counted(offset, rank, symbol, &mut tally)
    }

    /// Returns `select_offset(..)`. Makes at most `4k` rank calls for symbols of `k` bits, each reading at most
    /// what one select of a level does.
    #[inline(always)]
    pub fn select_offset_counted(
        &self,
        offset: usize,
        rank: usize,
        symbol: &BitVec<A>,
        tally: &mut Tally,
    ) -> Option<usize> {
        if symbol.len() != self.bits_per_element() || offset >= self.len() {
            return None;
        }
        self.find_from(offset, rank, symbol, tally)
    }

    /// Returns the position of occurrence `rank` (from 0) of a symbol from position `offset` on, or the length
    /// if there are fewer. Precondition: `offset` is at most the length, and the symbol has the list's width.
    pub fn select_offset_unchecked(&self, offset: usize, rank: usize, symbol: &BitVec<A>) -> usize {
        self.position_from(offset, rank, symbol)
    }

    /// Returns the position of occurrence `rank` (from 0) of a symbol. `None` if the symbol has another width,
    /// or there are fewer occurrences.
    pub fn select(&self, rank: usize, symbol: &BitVec<A>) -> Option<usize> {
        let mut tally = Tally::new();
        self.select_counted(rank, symbol, &mut tally)
    }

    /// Returns `select(..)`. Makes at most `4k` rank calls for symbols of `k` bits, each reading at most what
    /// one select of a level does.
    #[inline(always)]
    pub fn select_counted(
        &self,
        rank: usize,
        symbol: &BitVec<A>,
        tally: &mut Tally,
    ) -> Option<usize> {
        if symbol.len() != self.bits_per_element() {
            return None;
        }
        self.find_from(0, rank, symbol, tally)
    }

    /// Returns the position of occurrence `rank` (from 0) of a symbol, or the length if there are fewer.
    /// Precondition: the symbol has the list's width.
    pub fn select_unchecked(&self, rank: usize, symbol: &BitVec<A>) -> usize {
        self.select_offset_unchecked(0, rank, symbol)
    }

    /// Returns the position of occurrence `rank` (from 0) of a symbol from position `offset` on. Only the low
    /// bits of `symbol` count. `None` if the symbols have more than 64 bits, `offset` is at or past the end, or
    /// there are fewer occurrences.
    pub fn select_offset_u64(&self, offset: usize, rank: usize, symbol: u64) -> Option<usize> {
        let mut tally = Tally::new();
        self.select_offset_u64_counted(offset, rank, symbol, &mut tally)
    }

    /// Returns `select_offset_u64(..)`. Makes at most `4k` rank calls for symbols of `k` bits, each reading at
    /// most what one select of a level does.
    #[inline(always)]
    pub fn select_offset_u64_counted(
        &self,
        offset: usize,
        rank: usize,
        symbol: u64,
        tally: &mut Tally,
    ) -> Option<usize> {
        if !self.fits_word() || offset >= self.len() {
            return None;
        }
        self.find_from(offset, rank, &symbol, tally)
    }

    /// Returns the position of occurrence `rank` (from 0) of a symbol from position `offset` on, or the length
    /// if there are fewer. Only the low bits of `symbol` count. Precondition: `offset` is at most the length,
    /// and the symbols have at most 64 bits.
    pub fn select_offset_u64_unchecked(&self, offset: usize, rank: usize, symbol: u64) -> usize {
        self.position_from(offset, rank, &symbol)
    }

    /// Returns the position of occurrence `rank` (from 0) of a symbol. Only the low bits of `symbol` count.
    /// `None` if the symbols have more than 64 bits, or there are fewer occurrences.
    pub fn select_u64(&self, rank: usize, symbol: u64) -> Option<usize> {
        let mut tally = Tally::new();
        self.select_u64_counted(rank, symbol, &mut tally)
    }

    /// Returns `select_u64(..)`. Makes at most `4k` rank calls for symbols of `k` bits, each reading at most
    /// what one select of a level does.
    #[inline(always)]
    pub fn select_u64_counted(&self, rank: usize, symbol: u64, tally: &mut Tally) -> Option<usize> {
        if !self.fits_word() {
            return None;
        }
        self.find_from(0, rank, &symbol, tally)
    }

    /// Returns the position of occurrence `rank` (from 0) of a symbol, or the length if there are fewer. Only
    /// the low bits of `symbol` count. Precondition: the symbols have at most 64 bits.
    pub fn select_u64_unchecked(&self, rank: usize, symbol: u64) -> usize {
        self.select_offset_u64_unchecked(0, rank, symbol)
    }
}
