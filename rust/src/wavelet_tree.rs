//! Lists of symbols by their codes, which the crate vers-vecs doesn't have.

use crate::contracts::contract;
use crate::error::{granted, BuildError};
use crate::items::{clones, iterator, lengths, shows, Walk};
use crate::proved::wavelet_tree as proved;
use crate::rattle::Global;
use crate::reads::Tally;
use crate::wavelet::Integer;
use std::hash::{Hash, Hasher};
use std::ops::Range;

/// The greatest number of bits of a symbol.
const MAX_WIDTH: u16 = 16;

/// A list of symbols of at most 16 bits that reads and counts them. It can't change.
///
/// A binary tree divides the symbols at each fork so that about half of the elements are on each side. The number of
/// forks above a symbol is the length of its code, which is short for a frequent symbol. A query takes one or two ranks
/// at each fork above its symbol; a [`WaveletMatrix`](crate::WaveletMatrix) takes them for each bit of the width.
///
/// Memory: 1.25 bits for each element and each fork above it, 32 bytes for each symbol that occurs, and 8 for each that
/// there may be. It has no select, quantile, predecessor or successor.
///
/// The *sorted position* of an element is its index if all are sorted, and equal ones keep their order.
///
/// ```
/// use vers_vecs::wavelet_tree::WaveletTree;
///
/// let symbols = WaveletTree::from_integers(b"abracadabra", 8).unwrap();
/// assert_eq!((symbols.get(2), symbols.get(11)), (Some(u64::from(b'r')), None));
/// assert_eq!(symbols.rank(8, u64::from(b'a')), Some(4));
/// // five times `a`, then `b`: the second one is at sorted position 6
/// assert_eq!(symbols.sorted_range(5..11, u64::from(b'b')), Some(6..7));
/// assert_eq!(symbols.sorted_range(5..11, u64::from(b'c')), None);
/// ```
pub struct WaveletTree {
    symbols: proved::WaveletTree<Global>,
}

/// A symbol, and its sorted position: its index if all elements are sorted, and equal ones keep their order.
#[derive(Clone, Copy, PartialEq, Eq, Hash, Debug)]
pub struct SortedPosition {
    /// The symbol.
    pub symbol: u64,
    /// The sorted position.
    pub position: usize,
}

#[doc(hidden)]
impl From<proved::SortedPosition> for SortedPosition {
    #[inline]
    fn from(found: proved::SortedPosition) -> SortedPosition {
        SortedPosition { symbol: found.symbol, position: found.position }
    }
}

clones!(WaveletTree, symbols);
shows!(WaveletTree, "symbols", |list| list.iter());
lengths!(WaveletTree, symbols, "symbols", usize);

/// Refuses a width above 16, and the first symbol that has more bits.
fn check_symbols<N: Integer>(symbols: &[N], width: u16) -> Result<(), BuildError> {
    if width > MAX_WIDTH {
        return Err(BuildError::UnsupportedWidth { bits: width });
    }
    match symbols.iter().position(|symbol| symbol.number() >> width != 0) {
        Some(position) => Err(BuildError::SymbolTooWide { position }),
        None => Ok(()),
    }
}

/// Constructors.
impl WaveletTree {
    /// Indexes some symbols of `width` bits. Besides the tree it allocates two buffers of as many numbers of the same
    /// type.
    ///
    /// # Errors
    /// `UnsupportedWidth` if `width` is above 16, `SymbolTooWide` if a symbol has more bits, and `OutOfMemory`.
    #[doc = contract!(WaveletTree::from_integers)]
    pub fn from_integers<N: Integer>(symbols: &[N], width: u16) -> Result<Self, BuildError> {
        check_symbols(symbols, width)?;
        Ok(WaveletTree { symbols: proved::WaveletTree::from_integers(Global, symbols, width)? })
    }

    /// Indexes some symbols as [`from_integers`](Self::from_integers) does, in their own memory and one buffer more.
    ///
    /// # Errors
    /// Those of [`from_integers`](Self::from_integers).
    #[doc = contract!(WaveletTree::from_vec)]
    pub fn from_vec<N: Integer>(symbols: Vec<N>, width: u16) -> Result<Self, BuildError> {
        check_symbols(&symbols, width)?;
        let symbols = crate::rattle::Vec::from_plain(symbols, Global);
        Ok(WaveletTree { symbols: proved::WaveletTree::from_vec(Global, symbols, width)? })
    }
}

/// Queries.
impl WaveletTree {
    /// Returns the number of bits of a symbol.
    #[doc = contract!(WaveletTree::bit_len)]
    #[must_use]
    #[inline]
    pub fn bit_len(&self) -> u16 {
        self.symbols.bit_len()
    }

    /// Returns the symbol at `position`, or `None` past the end.
    #[doc = contract!(WaveletTree::get)]
    #[must_use]
    #[inline]
    pub fn get(&self, position: usize) -> Option<u64> {
        (position < self.len()).then(|| self.symbols.get(position))
    }

    /// Iterates over the symbols in order, from both ends.
    #[inline]
    pub fn iter(&self) -> WaveletTreeIter<'_> {
        WaveletTreeIter(Positions { source: self, range: 0..self.len() })
    }

    /// Returns the symbol at `position` and its sorted position, or `None` past the end.
    #[doc = contract!(WaveletTree::get_sorted)]
    #[must_use]
    #[inline]
    pub fn get_sorted(&self, position: usize) -> Option<SortedPosition> {
        (position < self.len()).then(|| self.symbols.get_sorted(position).into())
    }

    /// Does the same as [`get_sorted`](Self::get_sorted), and adds the reads to `tally`.
    #[doc = contract!(WaveletTree::get_sorted_counted)]
    #[inline]
    pub fn get_sorted_counted(&self, position: usize, tally: &mut Tally) -> Option<SortedPosition> {
        (position < self.len()).then(|| self.symbols.get_sorted_counted(position, &mut tally.0).into())
    }

    /// Returns the number of occurrences of a symbol before `position`, or `None` if `position` is above the length.
    #[doc = contract!(WaveletTree::rank)]
    #[must_use]
    #[inline]
    pub fn rank(&self, position: usize, symbol: u64) -> Option<usize> {
        (position <= self.len()).then(|| self.symbols.rank(position, symbol))
    }

    /// Does the same as [`rank`](Self::rank), and adds the reads to `tally`.
    #[doc = contract!(WaveletTree::rank_counted)]
    #[inline]
    pub fn rank_counted(&self, position: usize, symbol: u64, tally: &mut Tally) -> Option<usize> {
        (position <= self.len()).then(|| self.symbols.rank_counted(position, symbol, &mut tally.0))
    }

    /// Returns the sorted positions of the occurrences of a symbol in a range, which are adjacent. `None` if there are
    /// none, or the list doesn't have the range.
    #[doc = contract!(WaveletTree::sorted_range)]
    #[must_use]
    #[inline]
    pub fn sorted_range(&self, range: Range<usize>, symbol: u64) -> Option<Range<usize>> {
        if range.start <= range.end && range.end <= self.len() {
            return self.symbols.sorted_range(range, symbol);
        }
        None
    }

    /// Does the same as [`sorted_range`](Self::sorted_range), and adds the reads to `tally`.
    #[doc = contract!(WaveletTree::sorted_range_counted)]
    #[inline]
    pub fn sorted_range_counted(&self, range: Range<usize>, symbol: u64, tally: &mut Tally) -> Option<Range<usize>> {
        if range.start <= range.end && range.end <= self.len() {
            return self.symbols.sorted_range_counted(range, symbol, &mut tally.0);
        }
        None
    }
}

/// A range of positions of a tree.
#[derive(Clone)]
pub(crate) struct Positions<'a> {
    source: &'a WaveletTree,
    range: Range<usize>,
}

impl Walk for Positions<'_> {
    type Item = u64;

    #[inline(always)]
    fn left(&self) -> usize {
        self.range.len()
    }

    #[inline(always)]
    fn first(&mut self) -> Option<u64> {
        self.source.get(self.range.next()?)
    }

    #[inline(always)]
    fn last(&mut self) -> Option<u64> {
        self.source.get(self.range.next_back()?)
    }

    #[inline(always)]
    fn after(&mut self, n: usize) -> Option<u64> {
        self.source.get(self.range.nth(n)?)
    }

    #[inline(always)]
    fn before(&mut self, n: usize) -> Option<u64> {
        self.source.get(self.range.nth_back(n)?)
    }
}

iterator! {
    /// Iterates over the symbols of a [`WaveletTree`], a [`get`](WaveletTree::get) each.
    WaveletTreeIter ['a] ['a] = Positions<'a>, u64, |it| it.clone()
}

impl<'a> IntoIterator for &'a WaveletTree {
    type Item = u64;
    type IntoIter = WaveletTreeIter<'a>;

    fn into_iter(self) -> WaveletTreeIter<'a> {
        self.iter()
    }
}

impl Default for WaveletTree {
    #[track_caller]
    fn default() -> Self {
        granted(WaveletTree::from_integers::<u8>(&[], 0))
    }
}

/// Iterates over numbers that determine the symbols of a tree and its width, as these determine the numbers: how many
/// elements are below each symbol, and the limbs of the tree.
pub(crate) fn numbers(tree: &proved::WaveletTree<Global>) -> impl Iterator<Item = u64> + '_ {
    let starts = (0..=1 << tree.bit_len()).map(move |symbol| tree.start(symbol));
    starts.chain((0..(tree.tree_bit_count() + 63) / 64).map(move |k| tree.tree_limb(k)))
}

impl PartialEq for WaveletTree {
    /// Returns true if the width and all symbols are equal.
    fn eq(&self, other: &Self) -> bool {
        self.bit_len() == other.bit_len()
            && self.len() == other.len()
            && numbers(&self.symbols).eq(numbers(&other.symbols))
    }
}

impl Eq for WaveletTree {}

impl Hash for WaveletTree {
    fn hash<H: Hasher>(&self, state: &mut H) {
        (self.bit_len(), self.len()).hash(state);
        numbers(&self.symbols).for_each(|number| number.hash(state));
    }
}
