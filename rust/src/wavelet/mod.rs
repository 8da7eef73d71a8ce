//! Lists of symbols of one width.

use crate::contracts::contract;
use crate::error::{granted, BuildError};
use crate::items::{clones, counted, counted_iterator, first_of, iterates, iterators, last_of};
use crate::proved::vers_saved::bits::limb_of;
use crate::proved::vers_wavelet::wavelet as proved;
use crate::rattle::Global;
use crate::reads::Tally;
use crate::saved::saved;
use crate::BitVec;
use std::hash::{Hash, Hasher};
use std::ops::Range;

pub use crate::proved::vers_wavelet::wavelet::Integer;

/// A symbol, and its gathered position: the one to which it moves if equal symbols are gathered.
#[derive(Clone, Copy, PartialEq, Eq, Hash, Debug)]
pub struct Gathered {
    /// The symbol.
    pub symbol: u64,
    /// The gathered position.
    pub position: usize,
}

#[doc(hidden)]
impl From<proved::Gathered> for Gathered {
    #[inline]
    fn from(found: proved::Gathered) -> Gathered {
        Gathered { symbol: found.symbol, position: found.position }
    }
}

/// A list of symbols of one width, which takes the memory of an `RsVec` for each bit of the width. It reads, counts and
/// finds symbols, and finds those of a range by size. It can't change.
///
/// Symbols are numbers of at most 64 bits, or lists of bits of any width, the lowest bit first. The calls that end in
/// `_u64` are for numbers, and use the low bits of a wider symbol. With `k` bits a symbol, queries make at most `2k`
/// rank or select queries of bits. A `range` excludes its end.
///
/// ```
/// use vers_vecs::WaveletMatrix;
///
/// let symbols = WaveletMatrix::from_slice(&[5, 1, 7, 1, 3], 3);
/// assert_eq!(symbols.get_u64(2), Some(7));
/// assert_eq!(symbols.rank_u64(4, 1), Some(2));
/// assert_eq!(symbols.select_u64(1, 1), Some(3));
/// assert_eq!(symbols.quantile_u64(1..5, 2), Some(3));
/// assert_eq!(symbols.successor_u64(0..5, 4), Some(5));
/// // `range_min_u64` returns a symbol, not its position.
/// assert_eq!(symbols.range_min_u64(0..3), Some(1));
/// ```
pub struct WaveletMatrix {
    symbols: proved::WaveletMatrix<Global>,
}

clones!(WaveletMatrix, symbols);
saved!(WaveletMatrix, symbols);

/// Constructors.
impl WaveletMatrix {
    /// Indexes the symbols that follow one another in a list of bits, in O(`bits.len()`).
    ///
    /// # Panics
    /// If `bits_per_element` is 0, or the length is no multiple of it.
    #[doc = contract!(WaveletMatrix::from_bit_vec)]
    #[must_use]
    #[track_caller]
    pub fn from_bit_vec(bits: &BitVec, bits_per_element: u16) -> Self {
        granted(Self::try_from_bit_vec(bits, bits_per_element))
    }

    /// Indexes the symbols that follow one another in a list of bits, in O(`bits.len()`).
    ///
    /// # Errors
    /// `UnsupportedWidth` if `bits_per_element` is 0, `PartialSymbol` if the length is no multiple of it, and
    /// `OutOfMemory`.
    #[doc = contract!(WaveletMatrix::from_bit_vec)]
    pub fn try_from_bit_vec(bits: &BitVec, bits_per_element: u16) -> Result<Self, BuildError> {
        let width = usize::from(bits_per_element);
        if width > 0 && bits.len() % width == 0 {
            return Ok(WaveletMatrix { symbols: proved::WaveletMatrix::from_bit_vec(&bits.bits, bits_per_element)? });
        }
        Err(if width == 0 { BuildError::UnsupportedWidth { bits: 0 } } else { BuildError::PartialSymbol })
    }

    /// Indexes the low `bits_per_element` bits of each number, in O(`numbers.len()` · `bits_per_element`). For 0 bits
    /// there are no symbols.
    ///
    /// # Panics
    /// If `bits_per_element` is above 64.
    #[doc = contract!(WaveletMatrix::from_slice)]
    #[must_use]
    #[track_caller]
    pub fn from_slice(numbers: &[u64], bits_per_element: u16) -> Self {
        assert!(bits_per_element <= 64, "a symbol has at most 64 bits");
        WaveletMatrix { symbols: granted(proved::WaveletMatrix::from_slice(Global, numbers, bits_per_element)) }
    }

    /// Indexes the low `bits_per_element` bits of each number, as [`from_slice`](Self::from_slice) does, of numbers of
    /// 8, 16, 32 or 64 bits. The buffers of the sort have numbers of the same type.
    ///
    /// ```
    /// use vers_vecs::WaveletMatrix;
    ///
    /// let symbols = WaveletMatrix::from_integers(b"abracadabra", 8);
    /// assert_eq!(symbols.rank_u64(8, u64::from(b'a')), Some(4));
    /// ```
    ///
    /// # Panics
    /// If `bits_per_element` is above 64.
    #[doc = contract!(WaveletMatrix::from_integers)]
    #[must_use]
    #[track_caller]
    pub fn from_integers<N: Integer>(numbers: &[N], bits_per_element: u16) -> Self {
        assert!(bits_per_element <= 64, "a symbol has at most 64 bits");
        WaveletMatrix { symbols: granted(proved::WaveletMatrix::from_integers(Global, numbers, bits_per_element)) }
    }

    /// Indexes numbers of at most `bits_per_element` bits, in O(`numbers.len()` · `bits_per_element`).
    ///
    /// # Errors
    /// `UnsupportedWidth` if `bits_per_element` is 0 or above 64, `SymbolTooWide` if a number has more bits, and
    /// `OutOfMemory`.
    ///
    /// ```
    /// use vers_vecs::error::BuildError;
    /// use vers_vecs::WaveletMatrix;
    ///
    /// // `from_slice` keeps only the low bits.
    /// assert_eq!(WaveletMatrix::from_slice(&[9], 3).get_u64(0), Some(1));
    /// let error = WaveletMatrix::try_from_slice(&[9], 3).unwrap_err();
    /// assert_eq!(error, BuildError::SymbolTooWide { position: 0 });
    /// ```
    #[doc = contract!(WaveletMatrix::from_slice)]
    pub fn try_from_slice(numbers: &[u64], bits_per_element: u16) -> Result<Self, BuildError> {
        if bits_per_element == 0 || bits_per_element > 64 {
            return Err(BuildError::UnsupportedWidth { bits: bits_per_element });
        }
        match numbers.iter().position(|number| *number > u64::MAX >> (64 - bits_per_element)) {
            Some(position) => Err(BuildError::SymbolTooWide { position }),
            None => {
                Ok(WaveletMatrix { symbols: proved::WaveletMatrix::from_slice(Global, numbers, bits_per_element)? })
            }
        }
    }

    /// Indexes symbols as [`from_bit_vec`](Self::from_bit_vec) does. The call of this name in vers-vecs counts
    /// prefixes, for narrow symbols.
    ///
    /// # Panics
    /// If `bits_per_element` is 0 or above 64, or the length is no multiple of it.
    #[doc = contract!(WaveletMatrix::from_bit_vec)]
    #[must_use]
    #[track_caller]
    pub fn from_bit_vec_pc(bits: &BitVec, bits_per_element: u16) -> Self {
        assert!(bits_per_element <= 64, "a symbol has at most 64 bits");
        Self::from_bit_vec(bits, bits_per_element)
    }

    /// Indexes numbers of at most `bits_per_element` bits. The call of this name in vers-vecs counts prefixes, for
    /// narrow symbols.
    ///
    /// # Panics
    /// If `bits_per_element` is above 64, or a number has more bits.
    #[doc = contract!(WaveletMatrix::from_slice)]
    #[must_use]
    #[track_caller]
    pub fn from_slice_pc(numbers: &[u64], bits_per_element: u16) -> Self {
        if numbers.is_empty() {
            return Self::from_slice(numbers, bits_per_element);
        }
        granted(Self::try_from_slice(numbers, bits_per_element))
    }
}

/// Sizes.
impl WaveletMatrix {
    /// Returns the number of bits of a symbol.
    #[doc = contract!(WaveletMatrix::bits_per_element)]
    #[must_use]
    #[inline]
    pub fn bits_per_element(&self) -> usize {
        self.symbols.bits_per_element()
    }

    /// Returns the number of bits of a symbol.
    #[doc = contract!(WaveletMatrix::bit_len)]
    #[must_use]
    #[deprecated(since = "1.5.1", note = "please use `bits_per_element` instead")]
    pub fn bit_len(&self) -> u16 {
        self.symbols.bit_len()
    }

    /// Returns the number of symbols.
    #[doc = contract!(WaveletMatrix::len)]
    #[must_use]
    #[inline]
    pub fn len(&self) -> usize {
        self.symbols.len()
    }

    /// Returns true if there are no symbols.
    #[doc = contract!(WaveletMatrix::is_empty)]
    #[must_use]
    #[inline]
    pub fn is_empty(&self) -> bool {
        self.symbols.is_empty()
    }

    /// Returns the number of bytes on the heap.
    #[doc = contract!(WaveletMatrix::heap_size)]
    #[must_use]
    pub fn heap_size(&self) -> usize {
        self.symbols.heap_size()
    }
}

/// Symbols at positions.
impl WaveletMatrix {
    /// Returns the symbol at `position` as a list of bits, or `None` past the end.
    #[doc = contract!(WaveletMatrix::get_value)]
    #[must_use]
    #[track_caller]
    pub fn get_value(&self, position: usize) -> Option<BitVec> {
        granted(self.symbols.get_value(position)).map(BitVec::from)
    }

    /// Returns the symbol at `position` as a list of bits.
    ///
    /// # Panics
    /// If `position` is past the end.
    #[doc = contract!(WaveletMatrix::get_value)]
    #[must_use]
    #[track_caller]
    pub fn get_value_unchecked(&self, position: usize) -> BitVec {
        match self.get_value(position) {
            Some(found) => found,
            None => panic!("the list has no symbol at {}", position),
        }
    }

    /// Returns the symbol at `position`. `None` past the end, and if symbols have more than 64 bits.
    #[doc = contract!(WaveletMatrix::get_u64)]
    #[must_use]
    #[inline]
    pub fn get_u64(&self, position: usize) -> Option<u64> {
        self.symbols.get_u64(position)
    }

    /// Returns the symbol at `position`.
    ///
    /// # Panics
    /// If `position` is past the end, or symbols have more than 64 bits.
    #[doc = contract!(WaveletMatrix::get_u64)]
    #[must_use]
    #[track_caller]
    pub fn get_u64_unchecked(&self, position: usize) -> u64 {
        match self.get_u64(position) {
            Some(found) => found,
            None => panic!("the list has no number at {}", position),
        }
    }
}

/// The number of queries of a batch in one group.
const GROUP: usize = 64;

/// A batch of queries of two lists of arguments, and its form that counts what it reads.
macro_rules! batches {
    ($($(#[$doc:meta])* $each:ident, $each_counted:ident, $proved:ident, $proved_counted:ident:
        $first:ident, $second:ident: $kind:ty, |$one:ident, $other:ident| $query:expr;)*) => {
        /// Many queries at once, answered faster than one by one.
        impl WaveletMatrix {
            $(
                $(#[$doc])*
                ///
                /// # Panics
                /// If the two slices have different lengths.
                #[track_caller]
                pub fn $each(&self, $first: &mut [u64], $second: &[$kind], other: u64) {
                    assert_eq!($first.len(), $second.len(), "the slices have different lengths");
                    let mut queries: Vec<_> = $first.iter().zip($second).map(|($one, $other)| $query).collect();
                    queries.chunks_mut(GROUP).for_each(|group| self.symbols.$proved(group));
                    $first.iter_mut().zip(queries).for_each(|(slot, query)| *slot = number(query.answer, other));
                }

                #[doc = crate::items::counts!($each)]
                ///
                /// # Panics
                /// If the two slices have different lengths.
                #[track_caller]
                pub fn $each_counted(&self, $first: &mut [u64], $second: &[$kind], other: u64, tally: &mut Tally) {
                    assert_eq!($first.len(), $second.len(), "the slices have different lengths");
                    let mut queries: Vec<_> = $first.iter().zip($second).map(|($one, $other)| $query).collect();
                    queries.chunks_mut(GROUP).for_each(|group| self.symbols.$proved_counted(group, &mut tally.0));
                    $first.iter_mut().zip(queries).for_each(|(slot, query)| *slot = number(query.answer, other));
                }
            )*
        }
    };
}

/// Returns an answer of a batch as a number.
#[inline]
fn number<T: Number>(answer: Option<T>, other: u64) -> u64 {
    answer.map_or(other, Number::number)
}

/// The answers of batches.
trait Number {
    fn number(self) -> u64;
}

impl Number for u64 {
    fn number(self) -> u64 {
        self
    }
}

impl Number for usize {
    fn number(self) -> u64 {
        self as u64
    }
}

batches! {
    /// Replaces each end by its `rank_u64` of the symbol at the same index, or by `other` if that is `None`.
    rank_u64_each, rank_u64_each_counted, rank_u64_each, rank_u64_each_counted:
        ends, symbols: u64, |end, symbol| proved::RankQuery::new(*end as usize, *symbol);
    /// Replaces each rank by its `select_u64` of the symbol at the same index, or by `other` if that is `None`.
    select_u64_each, select_u64_each_counted, select_u64_each, select_u64_each_counted:
        ranks, symbols: u64, |rank, symbol| proved::SelectQuery::new(*rank as usize, *symbol);
    /// Replaces each number `i` by its `quantile_u64` of the range at the same index, or by `other` if that is `None`.
    quantile_u64_each, quantile_u64_each_counted, quantile_u64_each, quantile_u64_each_counted:
        numbers, ranges: Range<usize>, |i, range| proved::QuantileQuery::new(range.start, range.end, *i as usize);
    /// Replaces each position by its `gathered_u64` of the symbol at the same index, or by `other` if that is `None`.
    gathered_u64_each, gathered_u64_each_counted, gathered_u64_each, gathered_u64_each_counted:
        positions, symbols: u64, |position, symbol| proved::GatheredQuery::new(*position as usize, *symbol);
}

impl WaveletMatrix {
    /// Replaces each position by its `get_u64`, or by `other` if that is `None`.
    pub fn get_u64_each(&self, positions: &mut [u64], other: u64) {
        let mut queries: Vec<_> = positions.iter().map(|position| proved::GetQuery::new(*position as usize)).collect();
        queries.chunks_mut(GROUP).for_each(|group| self.symbols.get_u64_each(group));
        positions.iter_mut().zip(queries).for_each(|(slot, query)| *slot = number(query.answer, other));
    }

    /// Does the same as [`get_u64_each`](Self::get_u64_each), and adds the reads to `tally`.
    pub fn get_u64_each_counted(&self, positions: &mut [u64], other: u64, tally: &mut Tally) {
        let mut queries: Vec<_> = positions.iter().map(|position| proved::GetQuery::new(*position as usize)).collect();
        queries.chunks_mut(GROUP).for_each(|group| self.symbols.get_u64_each_counted(group, &mut tally.0));
        positions.iter_mut().zip(queries).for_each(|(slot, query)| *slot = number(query.answer, other));
    }
}

/// How often a symbol occurs.
impl WaveletMatrix {
    /// Returns the low bits of a symbol that has enough of them.
    #[track_caller]
    fn cut(&self, symbol: &BitVec) -> BitVec {
        let width = self.bits_per_element();
        assert!(symbol.len() >= width, "the symbol has too few bits");
        let mut symbol = symbol.clone();
        symbol.drop_last(symbol.len() - width);
        symbol
    }

    /// Returns the number of occurrences of a symbol in a range, from which positions past the end are left out.
    #[track_caller]
    fn ranked(&self, range: Range<usize>, symbol: &BitVec) -> usize {
        assert!(range.start <= range.end, "the range from {} to {} is reversed", range.start, range.end);
        let range = range.start.min(self.len())..range.end.min(self.len());
        let found = if symbol.len() == self.bits_per_element() {
            self.symbols.rank_range(range, &symbol.bits)
        } else {
            self.symbols.rank_range(range, &self.cut(symbol).bits)
        };
        // None for a range that starts at the end.
        found.unwrap_or(0)
    }

    /// Returns the number of occurrences of a symbol in a range, from which positions past the end are left out.
    #[track_caller]
    fn ranked_u64(&self, range: Range<usize>, symbol: u64) -> usize {
        assert!(range.start <= range.end, "the range from {} to {} is reversed", range.start, range.end);
        assert!(self.bits_per_element() <= 64, "a symbol has more than 64 bits");
        let range = range.start.min(self.len())..range.end.min(self.len());
        self.symbols.rank_range_u64(range, symbol).unwrap_or(0)
    }

    /// Returns the number of occurrences of a symbol in a range. Past the end there are none.
    ///
    /// # Panics
    /// If the range is reversed, or the symbol has too few bits.
    #[doc = contract!(WaveletMatrix::rank_range)]
    #[must_use]
    #[track_caller]
    pub fn rank_range_unchecked(&self, range: Range<usize>, symbol: &BitVec) -> usize {
        self.ranked(range, symbol)
    }

    /// Returns the number of occurrences of a symbol in a range. `None` if the range starts at or past the end, ends
    /// past it or is reversed, and if the symbol has another width.
    #[doc = contract!(WaveletMatrix::rank_range)]
    #[must_use]
    pub fn rank_range(&self, range: Range<usize>, symbol: &BitVec) -> Option<usize> {
        self.symbols.rank_range(range, &symbol.bits)
    }

    /// Returns the number of occurrences of a symbol in a range. Past the end there are none.
    ///
    /// # Panics
    /// If the range is reversed, or symbols have more than 64 bits.
    #[doc = contract!(WaveletMatrix::rank_range_u64)]
    #[must_use]
    #[track_caller]
    pub fn rank_range_u64_unchecked(&self, range: Range<usize>, symbol: u64) -> usize {
        self.ranked_u64(range, symbol)
    }

    /// Returns the number of occurrences of a symbol in a range. `None` if the range starts at or past the end, ends
    /// past it or is reversed, and if symbols have more than 64 bits.
    #[doc = contract!(WaveletMatrix::rank_range_u64)]
    #[must_use]
    #[inline]
    pub fn rank_range_u64(&self, range: Range<usize>, symbol: u64) -> Option<usize> {
        self.symbols.rank_range_u64(range, symbol)
    }

    /// Returns the number of occurrences of a symbol in `offset..end`. Past the end there are none.
    ///
    /// # Panics
    /// If `offset` is above `end`, or the symbol has too few bits.
    #[doc = contract!(WaveletMatrix::rank_offset)]
    #[must_use]
    #[track_caller]
    pub fn rank_offset_unchecked(&self, offset: usize, end: usize, symbol: &BitVec) -> usize {
        self.ranked(offset..end, symbol)
    }

    /// Returns the number of occurrences of a symbol in `offset..end`. `None` as for [`rank_range`](Self::rank_range).
    #[doc = contract!(WaveletMatrix::rank_offset)]
    #[must_use]
    pub fn rank_offset(&self, offset: usize, end: usize, symbol: &BitVec) -> Option<usize> {
        self.symbols.rank_offset(offset, end, &symbol.bits)
    }

    /// Returns the number of occurrences of a symbol in `offset..end`. Past the end there are none.
    ///
    /// # Panics
    /// If `offset` is above `end`, or symbols have more than 64 bits.
    #[doc = contract!(WaveletMatrix::rank_offset_u64)]
    #[must_use]
    #[track_caller]
    pub fn rank_offset_u64_unchecked(&self, offset: usize, end: usize, symbol: u64) -> usize {
        self.ranked_u64(offset..end, symbol)
    }

    /// Returns the number of occurrences of a symbol in `offset..end`. `None` as for
    /// [`rank_range_u64`](Self::rank_range_u64).
    #[doc = contract!(WaveletMatrix::rank_offset_u64)]
    #[must_use]
    #[inline]
    pub fn rank_offset_u64(&self, offset: usize, end: usize, symbol: u64) -> Option<usize> {
        self.symbols.rank_offset_u64(offset, end, symbol)
    }

    /// Returns the number of occurrences of a symbol before `end`. Past the end there are none.
    ///
    /// # Panics
    /// If the symbol has too few bits.
    #[doc = contract!(WaveletMatrix::rank)]
    #[must_use]
    #[track_caller]
    pub fn rank_unchecked(&self, end: usize, symbol: &BitVec) -> usize {
        self.ranked(0..end, symbol)
    }

    /// Returns the number of occurrences of a symbol before `end`. `None` if `end` is past the end, or the symbol has
    /// another width.
    #[doc = contract!(WaveletMatrix::rank)]
    #[must_use]
    pub fn rank(&self, end: usize, symbol: &BitVec) -> Option<usize> {
        self.symbols.rank(end, &symbol.bits)
    }

    /// Returns the number of occurrences of a symbol before `end`. Past the end there are none.
    ///
    /// # Panics
    /// If symbols have more than 64 bits.
    #[doc = contract!(WaveletMatrix::rank_u64)]
    #[must_use]
    #[track_caller]
    pub fn rank_u64_unchecked(&self, end: usize, symbol: u64) -> usize {
        self.ranked_u64(0..end, symbol)
    }

    /// Returns the number of occurrences of a symbol before `end`. `None` if `end` is past the end, or symbols have
    /// more than 64 bits.
    #[doc = contract!(WaveletMatrix::rank_u64)]
    #[must_use]
    #[inline]
    pub fn rank_u64(&self, end: usize, symbol: u64) -> Option<usize> {
        self.symbols.rank_u64(end, symbol)
    }
}

/// Positions of a symbol.
impl WaveletMatrix {
    /// Returns the position of the `rank`-th occurrence of a symbol from `offset` on, from 0, or the length if there is
    /// none.
    ///
    /// # Panics
    /// If the symbol has too few bits.
    #[doc = contract!(WaveletMatrix::select_offset)]
    #[must_use]
    #[track_caller]
    pub fn select_offset_unchecked(&self, offset: usize, rank: usize, symbol: &BitVec) -> usize {
        let found = if symbol.len() == self.bits_per_element() {
            self.symbols.select_offset(offset, rank, &symbol.bits)
        } else {
            self.symbols.select_offset(offset, rank, &self.cut(symbol).bits)
        };
        found.unwrap_or(self.len())
    }

    /// Returns the position of the `rank`-th occurrence of a symbol from `offset` on, from 0. `None` if there is none,
    /// or the symbol has another width.
    #[doc = contract!(WaveletMatrix::select_offset)]
    #[must_use]
    pub fn select_offset(&self, offset: usize, rank: usize, symbol: &BitVec) -> Option<usize> {
        self.symbols.select_offset(offset, rank, &symbol.bits)
    }

    /// Returns the position of the `rank`-th occurrence of a symbol from `offset` on, from 0, or the length if there is
    /// none.
    ///
    /// # Panics
    /// If symbols have more than 64 bits.
    #[doc = contract!(WaveletMatrix::select_offset_u64)]
    #[must_use]
    #[track_caller]
    pub fn select_offset_u64_unchecked(&self, offset: usize, rank: usize, symbol: u64) -> usize {
        assert!(self.bits_per_element() <= 64, "a symbol has more than 64 bits");
        self.symbols.select_offset_u64(offset, rank, symbol).unwrap_or(self.len())
    }

    /// Returns the position of the `rank`-th occurrence of a symbol from `offset` on, from 0. `None` if there is none,
    /// or symbols have more than 64 bits.
    #[doc = contract!(WaveletMatrix::select_offset_u64)]
    #[must_use]
    #[inline]
    pub fn select_offset_u64(&self, offset: usize, rank: usize, symbol: u64) -> Option<usize> {
        self.symbols.select_offset_u64(offset, rank, symbol)
    }

    /// Returns the position of the `rank`-th occurrence of a symbol, from 0, or the length if there is none.
    ///
    /// # Panics
    /// If the symbol has too few bits.
    #[doc = contract!(WaveletMatrix::select)]
    #[must_use]
    #[track_caller]
    pub fn select_unchecked(&self, rank: usize, symbol: &BitVec) -> usize {
        self.select_offset_unchecked(0, rank, symbol)
    }

    /// Returns the position of the `rank`-th occurrence of a symbol, from 0. `None` if there is none, or the symbol has
    /// another width.
    #[doc = contract!(WaveletMatrix::select)]
    #[must_use]
    pub fn select(&self, rank: usize, symbol: &BitVec) -> Option<usize> {
        self.symbols.select(rank, &symbol.bits)
    }

    /// Returns the position of the `rank`-th occurrence of a symbol, from 0, or the length if there is none.
    ///
    /// # Panics
    /// If symbols have more than 64 bits.
    #[doc = contract!(WaveletMatrix::select_u64)]
    #[must_use]
    #[track_caller]
    pub fn select_u64_unchecked(&self, rank: usize, symbol: u64) -> usize {
        assert!(self.bits_per_element() <= 64, "a symbol has more than 64 bits");
        self.symbols.select_u64(rank, symbol).unwrap_or(self.len())
    }

    /// Returns the position of the `rank`-th occurrence of a symbol, from 0. `None` if there is none, or symbols have
    /// more than 64 bits.
    #[doc = contract!(WaveletMatrix::select_u64)]
    #[must_use]
    #[inline]
    pub fn select_u64(&self, rank: usize, symbol: u64) -> Option<usize> {
        self.symbols.select_u64(rank, symbol)
    }
}

/// Gathered positions: equal symbols are gathered by their bits, the lowest first, and keep their order.
impl WaveletMatrix {
    /// Returns the symbol at `position`, and its gathered position. `None` past the end, and if symbols have more than 64
    /// bits.
    #[doc = contract!(WaveletMatrix::get_gathered_u64)]
    #[must_use]
    #[inline]
    pub fn get_gathered_u64(&self, position: usize) -> Option<Gathered> {
        self.symbols.get_gathered_u64(position).map(Gathered::from)
    }

    /// Does the same as [`get_gathered_u64`](Self::get_gathered_u64), and adds the reads to `tally`.
    #[doc = contract!(WaveletMatrix::get_gathered_u64_counted)]
    #[inline]
    pub fn get_gathered_u64_counted(&self, position: usize, tally: &mut Tally) -> Option<Gathered> {
        self.symbols.get_gathered_u64_counted(position, &mut tally.0).map(Gathered::from)
    }

    /// Returns the gathered position of the first occurrence of a symbol from `position` on. `None` if `position` is above
    /// the length, or symbols have more than 64 bits.
    #[doc = contract!(WaveletMatrix::gathered_u64)]
    #[must_use]
    #[inline]
    pub fn gathered_u64(&self, position: usize, symbol: u64) -> Option<usize> {
        self.symbols.gathered_u64(position, symbol)
    }

    /// Returns the range of gathered positions of a symbol in a range. `None` if the symbol doesn't occur in the range,
    /// the list doesn't have the range, or symbols have more than 64 bits.
    #[doc = contract!(WaveletMatrix::gathered_range_u64)]
    #[must_use]
    #[inline]
    pub fn gathered_range_u64(&self, range: Range<usize>, symbol: u64) -> Option<Range<usize>> {
        self.symbols.gathered_range_u64(range, symbol)
    }
}

/// Symbols by size: of a range, and of the whole list.
macro_rules! by_size {
    ($($what:literal, $value:ident, $value_counted:ident, $value_unchecked:ident,
        $number:ident, $number_counted:ident, $number_unchecked:ident, ($($arg:ident: $kind:ty),*);)*) => {
        /// Symbols by size, from 0 for the least; each of equal ones counts.
        impl WaveletMatrix {
            $(
                #[doc = concat!("Returns ", $what, ", as a list of bits.")]
                /// `None` if there is none, or the list doesn't have the range.
                #[doc = contract!(WaveletMatrix::$value)]
                #[must_use]
                #[track_caller]
                pub fn $value(&self, $($arg: $kind),*) -> Option<BitVec> {
                    granted(self.symbols.$value($($arg),*)).map(BitVec::from)
                }

                #[doc = crate::items::counts!($value)]
                #[doc = contract!(WaveletMatrix::$value_counted)]
                #[track_caller]
                pub fn $value_counted(&self, $($arg: $kind,)* tally: &mut Tally) -> Option<BitVec> {
                    granted(self.symbols.$value_counted($($arg,)* &mut tally.0)).map(BitVec::from)
                }

                #[doc = concat!("Returns ", $what, ", as a list of bits.")]
                ///
                /// # Panics
                /// If there is none, or the list doesn't have the range.
                #[doc = contract!(WaveletMatrix::$value)]
                #[must_use]
                #[track_caller]
                pub fn $value_unchecked(&self, $($arg: $kind),*) -> BitVec {
                    self.$value($($arg),*).expect("the list has no such symbol")
                }

                #[doc = concat!("Returns ", $what, ".")]
                /// `None` if there is none, the list doesn't have the range, or symbols have more than 64 bits.
                #[doc = contract!(WaveletMatrix::$number)]
                #[must_use]
                #[inline]
                pub fn $number(&self, $($arg: $kind),*) -> Option<u64> {
                    self.symbols.$number($($arg),*)
                }

                #[doc = crate::items::counts!($number)]
                #[doc = contract!(WaveletMatrix::$number_counted)]
                #[inline]
                pub fn $number_counted(&self, $($arg: $kind,)* tally: &mut Tally) -> Option<u64> {
                    self.symbols.$number_counted($($arg,)* &mut tally.0)
                }

                #[doc = concat!("Returns ", $what, ".")]
                ///
                /// # Panics
                /// If there is none, the list doesn't have the range, or symbols have more than 64 bits.
                #[doc = contract!(WaveletMatrix::$number)]
                #[must_use]
                #[track_caller]
                pub fn $number_unchecked(&self, $($arg: $kind),*) -> u64 {
                    self.$number($($arg),*).expect("the list has no such number")
                }
            )*
        }
    };
}

by_size! {
    "the `i`-th least symbol of a range, counted from 0", quantile, quantile_counted, quantile_unchecked,
        quantile_u64, quantile_u64_counted, quantile_u64_unchecked, (range: Range<usize>, i: usize);
    "the `i`-th least symbol of the whole list, counted from 0", get_sorted, get_sorted_counted, get_sorted_unchecked,
        get_sorted_u64, get_sorted_u64_counted, get_sorted_u64_unchecked, (i: usize);
    "the least symbol of a range", range_min, range_min_counted, range_min_unchecked,
        range_min_u64, range_min_u64_counted, range_min_u64_unchecked, (range: Range<usize>);
    "the greatest symbol of a range", range_max, range_max_counted, range_max_unchecked,
        range_max_u64, range_max_u64_counted, range_max_u64_unchecked, (range: Range<usize>);
    "the median of a range, the lower one of two", range_median, range_median_counted, range_median_unchecked,
        range_median_u64, range_median_u64_counted, range_median_u64_unchecked, (range: Range<usize>);
}

/// Nearest symbols of ranges.
impl WaveletMatrix {
    /// Returns the greatest symbol of a range that is at most `symbol`. `None` if there is none, the list doesn't have
    /// the range, or `symbol` has another width.
    #[doc = contract!(WaveletMatrix::predecessor)]
    #[must_use]
    #[track_caller]
    pub fn predecessor(&self, range: Range<usize>, symbol: &BitVec) -> Option<BitVec> {
        granted(self.symbols.predecessor(range, &symbol.bits)).map(BitVec::from)
    }

    /// Returns the greatest symbol of a range that is at most `symbol`. `None` if there is none, the list doesn't have
    /// the range, or symbols have more than 64 bits.
    #[doc = contract!(WaveletMatrix::predecessor_u64)]
    #[must_use]
    #[inline]
    pub fn predecessor_u64(&self, range: Range<usize>, symbol: u64) -> Option<u64> {
        self.symbols.predecessor_u64(range, symbol)
    }

    /// Returns the least symbol of a range that is at least `symbol`. `None` if there is none, the list doesn't have
    /// the range, or `symbol` has another width.
    #[doc = contract!(WaveletMatrix::successor)]
    #[must_use]
    #[track_caller]
    pub fn successor(&self, range: Range<usize>, symbol: &BitVec) -> Option<BitVec> {
        granted(self.symbols.successor(range, &symbol.bits)).map(BitVec::from)
    }

    /// Returns the least symbol of a range that is at least `symbol`. `None` if there is none, the list doesn't have
    /// the range, or symbols have more than 64 bits.
    #[doc = contract!(WaveletMatrix::successor_u64)]
    #[must_use]
    #[inline]
    pub fn successor_u64(&self, range: Range<usize>, symbol: u64) -> Option<u64> {
        self.symbols.successor_u64(range, symbol)
    }
}

counted! { WaveletMatrix, symbols:
    get_u64_counted, get_u64(position: usize) -> Option<u64>;
    rank_range_u64_counted, rank_range_u64(range: Range<usize>, symbol: u64) -> Option<usize>;
    rank_offset_u64_counted, rank_offset_u64(offset: usize, end: usize, symbol: u64) -> Option<usize>;
    rank_u64_counted, rank_u64(end: usize, symbol: u64) -> Option<usize>;
    select_offset_u64_counted, select_offset_u64(offset: usize, rank: usize, symbol: u64) -> Option<usize>;
    select_u64_counted, select_u64(rank: usize, symbol: u64) -> Option<usize>;
    gathered_u64_counted, gathered_u64(position: usize, symbol: u64) -> Option<usize>;
    gathered_range_u64_counted, gathered_range_u64(range: Range<usize>, symbol: u64) -> Option<Range<usize>>;
    predecessor_u64_counted, predecessor_u64(range: Range<usize>, symbol: u64) -> Option<u64>;
    successor_u64_counted, successor_u64(range: Range<usize>, symbol: u64) -> Option<u64>;
}

/// Forms of calls with symbols as lists of bits that count what they read.
macro_rules! counted_lists {
    ($($call:ident, $of:ident($($arg:ident: $kind:ty),*) -> $answer:ty, |$found:ident| $answer_of:expr;)*) => {
        /// Calls that count their reads, for symbols as lists of bits.
        impl WaveletMatrix {
            $(
                #[doc = crate::items::counts!($of)]
                #[doc = contract!(WaveletMatrix::$call)]
                #[track_caller]
                pub fn $call(&self, $($arg: $kind,)* symbol: &BitVec, tally: &mut Tally) -> $answer {
                    let $found = self.symbols.$call($($arg,)* &symbol.bits, &mut tally.0);
                    $answer_of
                }
            )*
        }
    };
}

counted_lists! {
    rank_range_counted, rank_range(range: Range<usize>) -> Option<usize>, |found| found;
    rank_offset_counted, rank_offset(offset: usize, end: usize) -> Option<usize>, |found| found;
    rank_counted, rank(end: usize) -> Option<usize>, |found| found;
    select_offset_counted, select_offset(offset: usize, rank: usize) -> Option<usize>, |found| found;
    select_counted, select(rank: usize) -> Option<usize>, |found| found;
    predecessor_counted, predecessor(range: Range<usize>) -> Option<BitVec>, |found| granted(found).map(BitVec::from);
    successor_counted, successor(range: Range<usize>) -> Option<BitVec>, |found| granted(found).map(BitVec::from);
}

impl WaveletMatrix {
    /// Does the same as [`get_value`](Self::get_value), and adds the reads to `tally`.
    #[doc = contract!(WaveletMatrix::get_value_counted)]
    #[track_caller]
    pub fn get_value_counted(&self, position: usize, tally: &mut Tally) -> Option<BitVec> {
        granted(self.symbols.get_value_counted(position, &mut tally.0)).map(BitVec::from)
    }
}

iterators! {
    /// Iterates over the symbols of a [`WaveletMatrix`] as lists of bits. Each item takes memory.
    WaveletIter [] [] = proved::WaveletIter<Global>,
    WaveletRefIter ['a] ['a] = proved::WaveletRefIter<'a, Global>, BitVec
}

counted_iterator! { WaveletIter [] [], BitVec }
counted_iterator! { WaveletRefIter ['a] ['a], BitVec }

iterators! {
    /// Iterates over the symbols of a [`WaveletMatrix`] as numbers.
    WaveletNumIter [] [] = proved::WaveletNumIter<Global>,
    WaveletNumRefIter ['a] ['a] = proved::WaveletNumRefIter<'a, Global>, u64
}

counted_iterator! { WaveletNumIter [] [], u64 }
counted_iterator! { WaveletNumRefIter ['a] ['a], u64 }

iterators! {
    /// Iterates over the symbols of a [`WaveletMatrix`] by size, as lists of bits. Each item takes memory.
    WaveletSortedIter [] [] = proved::WaveletSortedIter<Global>,
    WaveletSortedRefIter ['a] ['a] = proved::WaveletSortedRefIter<'a, Global>, BitVec
}

counted_iterator! { WaveletSortedIter [] [], BitVec }
counted_iterator! { WaveletSortedRefIter ['a] ['a], BitVec }

iterators! {
    /// Iterates over the symbols of a [`WaveletMatrix`] by size, as numbers. They ascend.
    WaveletSortedNumIter [] [] = proved::WaveletSortedNumIter<Global>,
    WaveletSortedNumRefIter ['a] ['a] = proved::WaveletSortedNumRefIter<'a, Global>, u64,
    ascending |it| first_of(it), last_of(it)
}

counted_iterator! { WaveletSortedNumIter [] [], u64 }
counted_iterator! { WaveletSortedNumRefIter ['a] ['a], u64 }

iterates! { WaveletMatrix, symbols, "symbols, as lists of bits,", BitVec, WaveletIter, WaveletRefIter }

/// Iterators.
impl WaveletMatrix {
    /// Iterates over the symbols as numbers, in order. `None` if they have more than 64 bits.
    #[doc = contract!(WaveletMatrix::iter_u64)]
    #[must_use]
    pub fn iter_u64(&self) -> Option<WaveletNumRefIter<'_>> {
        self.symbols.iter_u64().map(WaveletNumRefIter)
    }

    /// Iterates over the symbols as numbers, in order, and owns the list. `None` if they have more than 64 bits.
    #[doc = contract!(WaveletMatrix::into_iter_u64)]
    #[must_use]
    pub fn into_iter_u64(self) -> Option<WaveletNumIter> {
        self.symbols.into_iter_u64().map(WaveletNumIter)
    }

    /// Iterates over the symbols by size, as lists of bits.
    #[doc = contract!(WaveletMatrix::iter_sorted)]
    pub fn iter_sorted(&self) -> WaveletSortedRefIter<'_> {
        WaveletSortedRefIter(self.symbols.iter_sorted())
    }

    /// Iterates over the symbols by size, as lists of bits, and owns the list.
    #[doc = contract!(WaveletMatrix::into_iter_sorted)]
    pub fn into_iter_sorted(self) -> WaveletSortedIter {
        WaveletSortedIter(self.symbols.into_iter_sorted())
    }

    /// Iterates over the symbols by size, as numbers. `None` if they have more than 64 bits.
    #[doc = contract!(WaveletMatrix::iter_sorted_u64)]
    #[must_use]
    pub fn iter_sorted_u64(&self) -> Option<WaveletSortedNumRefIter<'_>> {
        self.symbols.iter_sorted_u64().map(WaveletSortedNumRefIter)
    }

    /// Iterates over the symbols by size, as numbers, and owns the list. `None` if they have more than 64 bits.
    #[doc = contract!(WaveletMatrix::into_iter_sorted_u64)]
    #[must_use]
    pub fn into_iter_sorted_u64(self) -> Option<WaveletSortedNumIter> {
        self.symbols.into_iter_sorted_u64().map(WaveletSortedNumIter)
    }
}

impl Default for WaveletMatrix {
    fn default() -> Self {
        WaveletMatrix::from_slice(&[], 1)
    }
}

impl WaveletMatrix {
    /// Iterates over the limbs of the levels, which determine the symbols, as these determine the levels.
    fn limbs(&self) -> impl Iterator<Item = u64> + '_ {
        let levels = (0..self.bits_per_element()).map(move |k| self.symbols.level(k));
        levels.flat_map(|level| (0..(level.len() + 63) / 64).map(move |k| limb_of(level, k)))
    }
}

impl PartialEq for WaveletMatrix {
    /// Returns true if the width and all symbols are equal.
    fn eq(&self, other: &Self) -> bool {
        self.bits_per_element() == other.bits_per_element()
            && self.len() == other.len()
            && self.limbs().eq(other.limbs())
    }
}

impl Eq for WaveletMatrix {}

impl Hash for WaveletMatrix {
    fn hash<H: Hasher>(&self, state: &mut H) {
        (self.bits_per_element(), self.len()).hash(state);
        self.limbs().for_each(|limb| limb.hash(state));
    }
}

impl std::fmt::Debug for WaveletMatrix {
    fn fmt(&self, f: &mut std::fmt::Formatter<'_>) -> std::fmt::Result {
        match self.iter_u64() {
            Some(symbols) => crate::items::show(f, "WaveletMatrix", "symbols", self.len() as u64, symbols),
            None => crate::items::show(f, "WaveletMatrix", "symbols", self.len() as u64, self.iter()),
        }
    }
}
