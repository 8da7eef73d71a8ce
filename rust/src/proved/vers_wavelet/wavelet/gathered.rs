//! Gathered order: all positions sorted stably by their symbols' digits, lowest digit first, so that equal
//! symbols are adjacent.

use crate::rattle::prelude::*;

use crate::proved::vers_wavelet::wavelet::WaveletMatrix;
use crate::proved::vers_wavelet::wavelet::walk::{descend, narrow, read_symbol};
use crate::rattle::Allocator;
use std::ops::Range;
use crate::proved::vers_tally::tally::Tally;

/// The symbol at a position, and its gathered position: its index when all positions are sorted stably by their
/// symbols' digits, lowest digit first.
#[derive(Clone, Copy, PartialEq, Eq, Debug)]
pub struct Gathered {
    /// The symbol.
    pub symbol: u64,
    /// The gathered position.
    pub position: usize,
}

impl<A: Allocator + Copy> WaveletMatrix<A> {
    /// Returns the symbol at `position`, and its gathered position: its index when all positions are sorted stably
    /// by their symbols' digits, lowest digit first. `None` if the symbols have more than 64 bits, or `position`
    /// is out of bounds.
    pub fn get_gathered_u64(&self, position: usize) -> Option<Gathered> {
        let mut tally = Tally::new();
        self.get_gathered_u64_counted(position, &mut tally)
    }

    /// Returns `get_gathered_u64(position)`. Reads at most two ranks of each level: `2k` rank calls for symbols of
    /// `k` bits.
    #[inline(always)]
    pub fn get_gathered_u64_counted(&self, position: usize, tally: &mut Tally) -> Option<Gathered> {
        if !self.fits_word() || position >= self.len() {
            return None;
        }
        let mut symbol: u64 = 0;
        let position = read_symbol(self.levels(), self.len(), position, &mut symbol, tally);
        Some(Gathered { symbol, position })
    }

    /// Returns the gathered position of the first occurrence of a symbol from `position` on, or the one that it
    /// would have if there is none. (The gathered position is the index when all positions are sorted stably by
    /// their symbols' digits, lowest digit first.) Only the low bits of `symbol` count. `None` if the symbols
    /// have more than 64 bits, or `position` is past the end.
    pub fn gathered_u64(&self, position: usize, symbol: u64) -> Option<usize> {
        let mut tally = Tally::new();
        self.gathered_u64_counted(position, symbol, &mut tally)
    }

    /// Returns `gathered_u64(..)`. Reads at most one rank of each level: `k` rank calls for symbols of `k` bits.
    #[inline(always)]
    pub fn gathered_u64_counted(
        &self,
        position: usize,
        symbol: u64,
        tally: &mut Tally,
    ) -> Option<usize> {
        if !self.fits_word() || position > self.len() {
            return None;
        }
        Some(self.gathered_from(position, symbol, tally))
    }

    /// Returns the gathered position that `gathered_u64` does. Precondition: `position` is at most the length, and
    /// the symbols have at most 64 bits.
    pub fn gathered_u64_unchecked(&self, position: usize, symbol: u64) -> usize {
        let mut tally = Tally::new();
        self.gathered_from(position, symbol, &mut tally)
    }

    // Returns the gathered position of the first occurrence of a symbol from a position on.
    #[inline(always)]
    fn gathered_from(&self, position: usize, symbol: u64, tally: &mut Tally) -> usize {
        descend(self.levels(), self.len(), position, &symbol, tally)
    }

    /// Returns the gathered positions of the occurrences of a symbol in a range: they are adjacent. (The
    /// gathered position is the index when all positions are sorted stably by their symbols' digits, lowest
    /// digit first.) Only the low bits of `symbol` count. `None` if the symbols have more than 64 bits, the
    /// range ends past the list, or the symbol doesn't occur in the range.
    pub fn gathered_range_u64(&self, range: Range<usize>, symbol: u64) -> Option<Range<usize>> {
        let mut tally = Tally::new();
        self.gathered_range_u64_counted(range, symbol, &mut tally)
    }

    /// Returns `gathered_range_u64(..)`. Reads at most two ranks of each level: `2k` rank calls for symbols of
    /// `k` bits.
    #[inline(always)]
    pub fn gathered_range_u64_counted(
        &self,
        range: Range<usize>,
        symbol: u64,
        tally: &mut Tally,
    ) -> Option<Range<usize>> {
        if !self.fits_word() || range.end > self.len() || range.start >= range.end {
            return None;
        }
        let positions = self.gathered_between(range.start, range.end, symbol, tally);
        if positions.start == positions.end {
            return None;
        }
        Some(positions)
    }

    // Returns the gathered positions of the occurrences of a symbol from `start` on, before `end`, or an empty
    // range if there are none.
    #[inline(always)]
    fn gathered_between(
        &self,
        start: usize,
        end: usize,
        symbol: u64,
        tally: &mut Tally,
    ) -> Range<usize> {
        let part = narrow(self.levels(), self.len(), start, end, &symbol, tally);
        part.start..part.end
    }
}
