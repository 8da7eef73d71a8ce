//! The wavelet matrix.

use crate::rattle::prelude::*;

mod batch;
mod by_levels;
mod count;
pub(crate) mod digits;
mod find;
mod gathered;
mod integer;
mod iter;
mod level;
mod make;
mod nearest;
mod neighbours;
mod order;
mod queries;
mod read;
mod sizes;
mod walk;
mod way;

pub use batch::{GatheredQuery, GetQuery, QuantileQuery, RankQuery, SelectQuery};
pub use gathered::Gathered;
pub use integer::Integer;
pub use iter::{
    BySize, InOrder, Lists, Matrix, Numbers, Order, SortedLists, SortedNumbers, SymbolLists,
    WaveletIter, WaveletNumIter, WaveletNumRefIter, WaveletRefIter, WaveletSortedIter,
    WaveletSortedNumIter, WaveletSortedNumRefIter, WaveletSortedRefIter,
};
pub use make::unpacked;
use crate::rattle::Allocator;
use crate::proved::vers_bits::bit_vec::MAX_LEN;
use crate::proved::vers_rank::fast_rs_vec::RsVec;

/// A list of symbols, which are numbers of the same width. Contracts see the width and the list of numbers.
///
/// It stores a list of bits, with its index, for each digit of the symbols: the highest digit of each first,
/// and each next digit after a stable sort by the previous digit, zeros first. This is the wavelet matrix of
/// Claude, Navarro and Ordóñez (Information Systems 47, 2015).
///
/// A symbol is a `BitVec` of its bits, lowest first; or, in the functions `_u64`, the low bits of a number. Each query
/// has a form `_counted`, which counts its reads in a `Tally`; the plain form passes a counter of its own. The forms
/// `_unchecked` have preconditions on their arguments.
pub struct WaveletMatrix<A: Allocator + Copy> {
    levels: Vec<RsVec<A>, A>,
    len: usize,
}

impl<A: Allocator + Copy> WaveletMatrix<A> {
    /// Returns the number of symbols.
    #[inline]
    pub fn len(&self) -> usize {
        self.len
    }

    /// Returns true if there are no symbols.
    #[inline]
    pub fn is_empty(&self) -> bool {
        self.len() == 0
    }

    /// Returns the number of bits of a symbol: each is below two to that power.
    #[inline]
    pub fn bits_per_element(&self) -> usize {
        self.levels().len()
    }

    // Returns true if a symbol fits in a word.
    #[inline(always)]
    pub(crate) fn fits_word(&self) -> bool {
        self.bits_per_element() <= 64
    }

    // Returns the lists of digits that make up the symbols.
    #[inline(always)]
    fn levels(&self) -> &[RsVec<A>] {
        &self.levels
    }

    /// Returns the number of bits of a symbol: `bits_per_element()`.
    #[inline]
    pub fn bit_len(&self) -> u16 {
        self.bits_per_element() as u16
    }
}
