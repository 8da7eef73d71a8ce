//! Lists of bits with rank and select.

use super::BitVec;
use crate::contracts::contract;
use crate::error::{granted, no_bit, no_bits, BuildError};
use crate::items::{clones, counted, counted_iterator, first_of, iterates, iterators, last_of, lengths, shows};
use crate::proved::vers_rank::fast_rs_vec as proved;
use crate::rattle::Global;
use crate::reads::Tally;
use crate::saved::saved;

/// A list of bits with an index for rank and select: it counts the ones and zeros before a position, and finds the
/// position of each. It can't change. The index takes about 5 % of the bits' memory.
///
/// ```
/// use vers_vecs::{BitVec, RsVec};
///
/// let bits = RsVec::from_bit_vec(BitVec::from_bits(&[0, 1, 1, 0, 1]));
/// assert_eq!(bits.rank1(3), 2);
/// assert_eq!(bits.select1(2), 4);
/// assert_eq!(bits.iter1().collect::<Vec<_>>(), [1, 2, 4]);
/// // `select1` returns the length if there is no such one, and `successor0` looks strictly above the position.
/// assert_eq!(bits.select1(3), 5);
/// assert_eq!(bits.successor0(0), Some(3));
/// ```
pub struct RsVec {
    pub(crate) bits: proved::RsVec<Global>,
}

/// The positions of two equal bits with no other between them. A position is the length of the list if there is no such
/// bit.
#[derive(Clone, Copy, PartialEq, Eq, Hash, Debug)]
pub struct PositionPair {
    /// The position of the first bit.
    pub first: usize,
    /// The position of the second bit.
    pub second: usize,
}

#[doc(hidden)]
impl From<proved::PositionPair> for PositionPair {
    #[inline]
    fn from(pair: proved::PositionPair) -> PositionPair {
        PositionPair { first: pair.first, second: pair.second }
    }
}

clones!(RsVec, bits);
shows!(RsVec, "bits", |list| list.iter());
lengths!(RsVec, bits, "bits", usize);
saved!(RsVec, bits);

/// Constructors and conversions.
impl RsVec {
    /// Indexes the bits of a list, whose memory it takes over, in O(`bits.len()`).
    #[doc = contract!(RsVec::from_bit_vec)]
    #[must_use]
    #[track_caller]
    pub fn from_bit_vec(bits: BitVec) -> RsVec {
        RsVec { bits: granted(proved::RsVec::from_bit_vec(bits.bits)) }
    }

    /// Indexes the bits of a list as [`from_bit_vec`](Self::from_bit_vec) does.
    ///
    /// # Errors
    /// `OutOfMemory` if the allocation of the index fails.
    #[doc = contract!(RsVec::from_bit_vec)]
    pub fn try_from_bit_vec(bits: BitVec) -> Result<RsVec, BuildError> {
        Ok(RsVec { bits: proved::RsVec::from_bit_vec(bits.bits)? })
    }

    /// Drops the index and returns the bits, without a copy.
    #[doc = contract!(RsVec::into_bit_vec)]
    #[must_use]
    pub fn into_bit_vec(self) -> BitVec {
        self.bits.into_bit_vec().into()
    }
}

/// Queries.
impl RsVec {
    /// Returns the number of zeros before `position`, or in the whole list past the end, in O(1).
    #[doc = contract!(RsVec::rank0)]
    #[must_use]
    #[inline]
    pub fn rank0(&self, position: usize) -> usize {
        self.bits.rank0(position)
    }

    /// Returns the number of ones before `position`, or in the whole list past the end, in O(1).
    #[doc = contract!(RsVec::rank1)]
    #[must_use]
    #[inline]
    pub fn rank1(&self, position: usize) -> usize {
        self.bits.rank1(position)
    }

    /// Returns the position of the `r`-th zero, from 0, or the length if there is none. O(log `len`) at worst.
    #[doc = contract!(RsVec::select0)]
    #[must_use]
    #[inline]
    pub fn select0(&self, r: usize) -> usize {
        self.bits.select0(r)
    }

    /// Returns the position of the `r`-th one, from 0, or the length if there is none. O(log `len`) at worst.
    #[doc = contract!(RsVec::select1)]
    #[must_use]
    #[inline]
    pub fn select1(&self, r: usize) -> usize {
        self.bits.select1(r)
    }

    /// Returns the positions of the `r`-th zero and of the next one, by one search.
    #[doc = contract!(RsVec::select0_pair)]
    #[must_use]
    #[inline]
    pub fn select0_pair(&self, r: usize) -> PositionPair {
        self.bits.select0_pair(r).into()
    }

    /// Returns the positions of the `r`-th one and of the next one, by one search.
    #[doc = contract!(RsVec::select1_pair)]
    #[must_use]
    #[inline]
    pub fn select1_pair(&self, r: usize) -> PositionPair {
        self.bits.select1_pair(r).into()
    }

    /// Returns the number of zeros, in O(1).
    #[doc = contract!(RsVec::zeros)]
    #[must_use]
    pub fn zeros(&self) -> usize {
        self.bits.zeros()
    }

    /// Returns the number of ones, in O(1).
    #[doc = contract!(RsVec::ones)]
    #[must_use]
    pub fn ones(&self) -> usize {
        self.bits.ones()
    }

    /// Returns the first zero strictly above `position`. `None` if there is none, or `position` is past the end.
    #[doc = contract!(RsVec::successor0)]
    #[must_use]
    #[inline]
    pub fn successor0(&self, position: usize) -> Option<u64> {
        self.bits.successor0(position)
    }

    /// Returns the first one strictly above `position`. `None` if there is none, or `position` is past the end.
    #[doc = contract!(RsVec::successor1)]
    #[must_use]
    #[inline]
    pub fn successor1(&self, position: usize) -> Option<u64> {
        self.bits.successor1(position)
    }

    /// Returns the last zero strictly below `position`, or `None` if there is none.
    #[doc = contract!(RsVec::predecessor0)]
    #[must_use]
    #[inline]
    pub fn predecessor0(&self, position: usize) -> Option<u64> {
        self.bits.predecessor0(position)
    }

    /// Returns the last one strictly below `position`, or `None` if there is none.
    #[doc = contract!(RsVec::predecessor1)]
    #[must_use]
    #[inline]
    pub fn predecessor1(&self, position: usize) -> Option<u64> {
        self.bits.predecessor1(position)
    }

    /// Returns the bit at `position`, or `None` past the end, in O(1).
    #[doc = contract!(RsVec::get)]
    #[must_use]
    #[inline]
    pub fn get(&self, position: usize) -> Option<u64> {
        self.bits.get(position)
    }

    /// Returns the bit at `position`, in O(1).
    ///
    /// # Panics
    /// If `position` is past the end.
    #[doc = contract!(RsVec::get)]
    #[must_use]
    #[inline]
    #[track_caller]
    pub fn get_unchecked(&self, position: usize) -> u64 {
        match self.bits.get(position) {
            Some(found) => found,
            None => no_bit(position),
        }
    }

    /// Returns true if the bit at `position` is a one, and adds the reads to `tally`.
    ///
    /// # Panics
    /// If `position` is past the end.
    #[doc = contract!(RsVec::is_one_counted)]
    #[must_use]
    #[inline]
    #[track_caller]
    pub fn is_one_counted(&self, position: usize, tally: &mut Tally) -> bool {
        if position >= self.len() {
            no_bit(position);
        }
        self.bits.is_one_counted(position, &mut tally.0)
    }

    /// Returns the `n` bits from `position` on as a number, the first bit lowest: 0 for no bits. `None` if the list has
    /// fewer, or `n` is above 64.
    #[doc = contract!(RsVec::get_bits)]
    #[must_use]
    #[inline]
    pub fn get_bits(&self, position: usize, n: usize) -> Option<u64> {
        self.bits.get_bits(position, n)
    }

    /// Returns the `n` bits from `position` on as a number, the first bit lowest: 0 for no bits.
    ///
    /// # Panics
    /// If the list has fewer, or `n` is above 64.
    #[doc = contract!(RsVec::get_bits)]
    #[must_use]
    #[inline]
    #[track_caller]
    pub fn get_bits_unchecked(&self, position: usize, n: usize) -> u64 {
        match self.bits.get_bits(position, n) {
            Some(found) => found,
            None => no_bits(position, n),
        }
    }

    /// Returns true if both lists have the same length and the same positions of ones (of zeros, for `ZERO`). For
    /// lists with few of these.
    #[doc = contract!(RsVec::sparse_equals)]
    #[must_use]
    pub fn sparse_equals<const ZERO: bool>(&self, other: &Self) -> bool {
        self.bits.sparse_equals::<ZERO>(&other.bits)
    }

    /// Returns true if both lists have the same bits, in O(`len` / 64).
    #[doc = contract!(RsVec::full_equals)]
    #[must_use]
    pub fn full_equals(&self, other: &Self) -> bool {
        self.bits.full_equals(&other.bits)
    }
}

/// Many queries at once. Selects of a batch are answered faster than one by one.
impl RsVec {
    /// Replaces each position by its `rank0`.
    pub fn rank0_each(&self, positions: &mut [usize]) {
        positions.iter_mut().for_each(|position| *position = self.rank0(*position));
    }

    /// Replaces each position by its `rank1`.
    pub fn rank1_each(&self, positions: &mut [usize]) {
        positions.iter_mut().for_each(|position| *position = self.rank1(*position));
    }

    /// Replaces each number by its `select0`.
    #[doc = contract!(RsVec::select0_each)]
    pub fn select0_each(&self, numbers: &mut [usize]) {
        self.bits.select0_each(numbers);
    }

    /// Replaces each number by its `select1`.
    ///
    /// ```
    /// use vers_vecs::{BitVec, RsVec};
    ///
    /// let bits = RsVec::from_bit_vec(BitVec::from_bits(&[0, 1, 1, 0, 1]));
    /// let mut numbers = [2, 0, 9];
    /// bits.select1_each(&mut numbers);
    /// assert_eq!(numbers, [4, 1, 5]);
    /// ```
    #[doc = contract!(RsVec::select1_each)]
    pub fn select1_each(&self, numbers: &mut [usize]) {
        self.bits.select1_each(numbers);
    }
}

counted! { RsVec, bits:
    rank0_counted, rank0(position: usize) -> usize;
    rank1_counted, rank1(position: usize) -> usize;
    select0_counted, select0(r: usize) -> usize;
    select1_counted, select1(r: usize) -> usize;
    select0_pair_counted, select0_pair(r: usize) -> PositionPair => into;
    select1_pair_counted, select1_pair(r: usize) -> PositionPair => into;
    successor0_counted, successor0(position: usize) -> Option<u64>;
    successor1_counted, successor1(position: usize) -> Option<u64>;
    predecessor0_counted, predecessor0(position: usize) -> Option<u64>;
    predecessor1_counted, predecessor1(position: usize) -> Option<u64>;
    get_counted, get(position: usize) -> Option<u64>;
    get_bits_counted, get_bits(position: usize, n: usize) -> Option<u64>;
    select0_each_counted, select0_each(numbers: &mut [usize]);
    select1_each_counted, select1_each(numbers: &mut [usize]);
}

/// Iterators over positions.
impl RsVec {
    /// Iterates over the positions of the zeros for `ZERO`, otherwise of the ones.
    #[doc = contract!(RsVec::select_iter)]
    pub fn select_iter<const ZERO: bool>(&self) -> SelectIter<'_, ZERO> {
        SelectIter(self.bits.select_iter())
    }

    /// Iterates over the positions of the zeros for `ZERO`, otherwise of the ones, and owns the list.
    #[doc = contract!(RsVec::into_select_iter)]
    pub fn into_select_iter<const ZERO: bool>(self) -> SelectIntoIter<ZERO> {
        SelectIntoIter(self.bits.into_select_iter())
    }

    /// Iterates over the positions of the zeros by chunks of bits, for lists with many zeros.
    #[doc = contract!(RsVec::bit_set_iter0)]
    pub fn bit_set_iter0(&self) -> BitSetIter<'_, true> {
        BitSetIter(self.bits.bit_set_iter0())
    }

    /// Iterates over the positions of the ones by chunks of bits, for lists with many ones.
    #[doc = contract!(RsVec::bit_set_iter1)]
    pub fn bit_set_iter1(&self) -> BitSetIter<'_, false> {
        BitSetIter(self.bits.bit_set_iter1())
    }

    /// Iterates over the positions of the zeros.
    #[doc = contract!(RsVec::iter0)]
    pub fn iter0(&self) -> SelectIter<'_, true> {
        SelectIter(self.bits.iter0())
    }

    /// Iterates over the positions of the ones.
    #[doc = contract!(RsVec::iter1)]
    pub fn iter1(&self) -> SelectIter<'_, false> {
        SelectIter(self.bits.iter1())
    }

    /// Iterates over the positions of the zeros, and owns the list.
    #[doc = contract!(RsVec::into_iter0)]
    pub fn into_iter0(self) -> SelectIntoIter<true> {
        SelectIntoIter(self.bits.into_iter0())
    }

    /// Iterates over the positions of the ones, and owns the list.
    #[doc = contract!(RsVec::into_iter1)]
    pub fn into_iter1(self) -> SelectIntoIter<false> {
        SelectIntoIter(self.bits.into_iter1())
    }
}

iterators! {
    /// Iterates over the bits of an [`RsVec`].
    RsVecIter [] [] = proved::RsVecIter<Global>, RsVecRefIter ['a] ['a] = proved::RsVecRefIter<'a, Global>, u64
}

counted_iterator! { RsVecIter [] [], u64 }
counted_iterator! { RsVecRefIter ['a] ['a], u64 }

iterators! {
    /// Iterates over the positions of the zeros of an [`RsVec`] for `ZERO`, otherwise of the ones. They ascend.
    SelectIntoIter [const ZERO: bool] [ZERO] = proved::SelectIntoIter<ZERO, Global>,
    SelectIter ['a, const ZERO: bool] ['a, ZERO] = proved::SelectIter<'a, ZERO, Global>, usize,
    ascending |it| first_of(it), last_of(it)
}

counted_iterator! { SelectIntoIter [const ZERO: bool] [ZERO], usize }
counted_iterator! { SelectIter ['a, const ZERO: bool] ['a, ZERO], usize }

iterates! { RsVec, bits, "bits", u64, RsVecIter, RsVecRefIter }

/// Iterates over the positions of the zeros of an [`RsVec`] for `ZERO`, otherwise of the ones, by chunks of bits. They
/// ascend.
#[must_use = "iterators do nothing unless they are used"]
pub struct BitSetIter<'a, const ZERO: bool>(proved::BitSetIter<'a, ZERO, Global>);

impl<const ZERO: bool> BitSetIter<'_, ZERO> {
    /// Returns the next position, and adds the reads to `tally`.
    #[inline]
    pub fn next_counted(&mut self, tally: &mut Tally) -> Option<usize> {
        self.0.next_counted(&mut tally.0)
    }
}

impl<const ZERO: bool> Iterator for BitSetIter<'_, ZERO> {
    type Item = usize;

    #[inline(always)]
    fn next(&mut self) -> Option<usize> {
        self.0.next()
    }

    fn min(mut self) -> Option<usize> {
        self.next()
    }
}

impl<const ZERO: bool> std::iter::FusedIterator for BitSetIter<'_, ZERO> {}

impl<const ZERO: bool> std::fmt::Debug for BitSetIter<'_, ZERO> {
    fn fmt(&self, f: &mut std::fmt::Formatter<'_>) -> std::fmt::Result {
        f.debug_struct("BitSetIter").finish_non_exhaustive()
    }
}

impl Default for RsVec {
    fn default() -> Self {
        RsVec::from_bit_vec(BitVec::new())
    }
}

impl PartialEq for RsVec {
    fn eq(&self, other: &Self) -> bool {
        self.bits == other.bits
    }
}

impl Eq for RsVec {}

impl std::hash::Hash for RsVec {
    fn hash<H: std::hash::Hasher>(&self, state: &mut H) {
        state.write_usize(self.len());
        let word = |position: usize| self.bits.get_bits(position, (self.len() - position).min(64)).unwrap_or(0);
        (0..self.len()).step_by(64).for_each(|position| state.write_u64(word(position)));
    }
}

impl From<BitVec> for RsVec {
    fn from(bits: BitVec) -> Self {
        RsVec::from_bit_vec(bits)
    }
}

impl From<RsVec> for BitVec {
    fn from(indexed: RsVec) -> Self {
        indexed.into_bit_vec()
    }
}

impl FromIterator<bool> for RsVec {
    /// Indexes a list with a one for each `true`.
    fn from_iter<T: IntoIterator<Item = bool>>(iter: T) -> Self {
        RsVec::from_bit_vec(BitVec::from_bool_iter(iter))
    }
}
