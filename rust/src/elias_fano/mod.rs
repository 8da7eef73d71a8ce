//! Ascending lists of numbers.

use crate::contracts::contract;
use crate::error::{granted, BuildError};
use crate::items::{
    answer_each, check_ascending, clones, compares, counted, counted_iterator, iterates, iterators, lengths, shows,
};
use crate::proved::vers_sorted::elias_fano as proved;
use crate::proved::vers_sorted::order::is_ascending;
use crate::rattle::Global;
use crate::reads::Tally;
use crate::saved::saved;
use std::ops::{Bound, RangeBounds};

/// A compressed list of ascending numbers, equal ones allowed: about 2 + log(last / length) bits for each. It can't
/// change.
///
/// ```
/// use vers_vecs::EliasFanoVec;
///
/// let list = EliasFanoVec::from_slice(&[2, 5, 5, 90]);
/// assert_eq!(list.get(3), Some(90));
/// assert_eq!(list.rank(5), 1);
/// // `predecessor` and `successor` return the number itself if the list has it.
/// assert_eq!(list.predecessor(89), Some(5));
/// assert_eq!(list.successor(5), Some(5));
/// assert_eq!(list.successor(91), None);
/// ```
pub struct EliasFanoVec {
    pub(crate) numbers: proved::EliasFanoVec<Global>,
}

clones!(EliasFanoVec, numbers);
shows!(EliasFanoVec, "numbers", |list| list.iter());
compares!(EliasFanoVec, |list| list.iter());
lengths!(EliasFanoVec, numbers, "numbers", usize);
saved!(EliasFanoVec, numbers);

/// Constructors.
impl EliasFanoVec {
    /// Compresses some numbers, in O(`numbers.len()`).
    ///
    /// # Panics
    /// If a number is less than the one before it.
    #[doc = contract!(EliasFanoVec::from_slice)]
    #[must_use]
    #[track_caller]
    pub fn from_slice(numbers: &[u64]) -> Self {
        granted(Self::try_from_slice(numbers))
    }

    /// Compresses some numbers, in O(`numbers.len()`).
    ///
    /// # Errors
    /// `NotAscending` if a number is less than the one before it, and `OutOfMemory`.
    #[doc = contract!(EliasFanoVec::from_slice)]
    pub fn try_from_slice(numbers: &[u64]) -> Result<Self, BuildError> {
        if is_ascending(numbers) {
            return Ok(EliasFanoVec { numbers: proved::EliasFanoVec::from_slice(Global, numbers)? });
        }
        Err(check_ascending(numbers, |one, next| one <= next).err().unwrap_or(BuildError::OutOfMemory))
    }
}

/// Queries.
impl EliasFanoVec {
    /// Returns the number at index `i`, or `None` past the end. O(log `len`) at worst.
    #[doc = contract!(EliasFanoVec::get)]
    #[must_use]
    #[inline]
    pub fn get(&self, i: usize) -> Option<u64> {
        self.numbers.get(i)
    }

    /// Returns the number at index `i`, as [`get`](Self::get) does.
    #[doc = contract!(EliasFanoVec::select)]
    #[must_use]
    #[inline]
    pub fn select(&self, i: usize) -> Option<u64> {
        self.numbers.select(i)
    }

    /// Returns the number at index `i`.
    ///
    /// # Panics
    /// If `i` is past the end.
    #[doc = contract!(EliasFanoVec::get)]
    #[must_use]
    #[inline]
    #[track_caller]
    pub fn get_unchecked(&self, i: usize) -> u64 {
        match self.numbers.get(i) {
            Some(found) => found,
            None => panic!("the list has no number at {}", i),
        }
    }

    /// Returns the greatest number that is at most `v`, or `None` if there is none. O(log `len`) at worst.
    #[doc = contract!(EliasFanoVec::predecessor)]
    #[must_use]
    #[inline]
    pub fn predecessor(&self, v: u64) -> Option<u64> {
        self.numbers.predecessor(v)
    }

    /// Returns the greatest number that is at most `v`.
    ///
    /// # Panics
    /// If there is none.
    #[doc = contract!(EliasFanoVec::predecessor)]
    #[must_use]
    #[track_caller]
    pub fn predecessor_unchecked(&self, v: u64) -> u64 {
        match self.predecessor(v) {
            Some(found) => found,
            None => panic!("no number is at most {}", v),
        }
    }

    /// Returns the least number that is at least `v`, or `None` if there is none. O(log `len`) at worst.
    #[doc = contract!(EliasFanoVec::successor)]
    #[must_use]
    #[inline]
    pub fn successor(&self, v: u64) -> Option<u64> {
        self.numbers.successor(v)
    }

    /// Returns the least number that is at least `v`.
    ///
    /// # Panics
    /// If there is none.
    #[doc = contract!(EliasFanoVec::successor)]
    #[must_use]
    #[track_caller]
    pub fn successor_unchecked(&self, v: u64) -> u64 {
        match self.successor(v) {
            Some(found) => found,
            None => panic!("no number is at least {}", v),
        }
    }

    /// Returns the number at index `i` less the one before it, or the first number itself. `None` past the end.
    #[doc = contract!(EliasFanoVec::delta)]
    #[must_use]
    #[inline]
    pub fn delta(&self, i: usize) -> Option<u64> {
        self.numbers.delta(i)
    }

    /// Returns how many numbers are less than `v`. O(log `len`) at worst, also with many equal numbers.
    #[doc = contract!(EliasFanoVec::rank)]
    #[must_use]
    #[inline]
    pub fn rank(&self, v: u64) -> u64 {
        self.numbers.rank(v)
    }

    /// Returns true if the list has the number `v`.
    #[doc = contract!(EliasFanoVec::has)]
    #[must_use]
    #[inline]
    pub fn has(&self, v: u64) -> bool {
        self.numbers.has(v)
    }
}

/// Ranges.
impl EliasFanoVec {
    /// Iterates over the numbers in a range of values, from both ends, after two [`rank`](Self::rank)s. A range that ends
    /// before it starts has no numbers.
    ///
    /// ```
    /// use vers_vecs::EliasFanoVec;
    ///
    /// let times = EliasFanoVec::from_slice(&[2, 5, 5, 90, 97]);
    /// assert_eq!(times.range(5..97).collect::<Vec<_>>(), [5, 5, 90]);
    /// assert_eq!(times.range(..=90).next_back(), Some(90));
    /// assert_eq!(times.range(6..).len(), 2);
    /// ```
    pub fn range<R: RangeBounds<u64>>(&self, values: R) -> EliasFanoRefIter<'_> {
        let start = match values.start_bound() {
            Bound::Included(&least) => self.rank(least) as usize,
            Bound::Excluded(&value) => self.rank_past(value),
            Bound::Unbounded => 0,
        };
        let end = match values.end_bound() {
            Bound::Included(&greatest) => self.rank_past(greatest),
            Bound::Excluded(&value) => self.rank(value) as usize,
            Bound::Unbounded => self.len(),
        };
        let mut numbers = self.iter();
        if let Some(others) = (self.len() - end).checked_sub(1) {
            numbers.nth_back(others);
        }
        if let Some(others) = start.checked_sub(1) {
            numbers.nth(others);
        }
        numbers
    }

    /// Returns how many numbers are at most `v`.
    fn rank_past(&self, v: u64) -> usize {
        v.checked_add(1).map_or(self.len(), |above| self.rank(above) as usize)
    }
}

/// Many queries at once, answered faster than one by one.
impl EliasFanoVec {
    /// Replaces each index by its `get`, or by `other` if that is `None`.
    #[doc = contract!(EliasFanoVec::get_each)]
    pub fn get_each(&self, positions: &mut [u64], other: u64) {
        answer_each(positions, other, |group| self.numbers.get_each(group));
    }

    /// Replaces each value by its `rank`.
    ///
    /// ```
    /// use vers_vecs::EliasFanoVec;
    ///
    /// let mut values = [6, 0, 91];
    /// EliasFanoVec::from_slice(&[2, 5, 5, 90]).rank_each(&mut values);
    /// assert_eq!(values, [3, 0, 4]);
    /// ```
    #[doc = contract!(EliasFanoVec::rank_each)]
    pub fn rank_each(&self, numbers: &mut [u64]) {
        self.numbers.rank_each(numbers);
    }

    /// Replaces each value by its `predecessor`, or by `other` if that is `None`.
    #[doc = contract!(EliasFanoVec::predecessor_each)]
    pub fn predecessor_each(&self, values: &mut [u64], other: u64) {
        answer_each(values, other, |group| self.numbers.predecessor_each(group));
    }

    /// Replaces each value by its `successor`, or by `other` if that is `None`.
    #[doc = contract!(EliasFanoVec::successor_each)]
    pub fn successor_each(&self, values: &mut [u64], other: u64) {
        answer_each(values, other, |group| self.numbers.successor_each(group));
    }

    /// Does the same as [`get_each`](Self::get_each), and adds the reads to `tally`.
    #[doc = contract!(EliasFanoVec::get_each_counted)]
    pub fn get_each_counted(&self, positions: &mut [u64], other: u64, tally: &mut Tally) {
        answer_each(positions, other, |group| self.numbers.get_each_counted(group, &mut tally.0));
    }

    /// Does the same as [`predecessor_each`](Self::predecessor_each), and adds the reads to `tally`.
    #[doc = contract!(EliasFanoVec::predecessor_each_counted)]
    pub fn predecessor_each_counted(&self, values: &mut [u64], other: u64, tally: &mut Tally) {
        answer_each(values, other, |group| self.numbers.predecessor_each_counted(group, &mut tally.0));
    }

    /// Does the same as [`successor_each`](Self::successor_each), and adds the reads to `tally`.
    #[doc = contract!(EliasFanoVec::successor_each_counted)]
    pub fn successor_each_counted(&self, values: &mut [u64], other: u64, tally: &mut Tally) {
        answer_each(values, other, |group| self.numbers.successor_each_counted(group, &mut tally.0));
    }
}

counted! { EliasFanoVec, numbers:
    get_counted, get(i: usize) -> Option<u64>;
    select_counted, select(i: usize) -> Option<u64>;
    delta_counted, delta(i: usize) -> Option<u64>;
    rank_counted, rank(v: u64) -> u64;
    has_counted, has(v: u64) -> bool;
    predecessor_counted, predecessor(v: u64) -> Option<u64>;
    successor_counted, successor(v: u64) -> Option<u64>;
    rank_each_counted, rank_each(numbers: &mut [u64]);
}

iterators! {
    /// Iterates over the numbers of an [`EliasFanoVec`]. They ascend.
    EliasFanoIter [] [] = proved::EliasFanoIter<Global>,
    EliasFanoRefIter ['a] ['a] = proved::EliasFanoRefIter<'a, Global>, u64,
    ascending |it| it.min(), it.max()
}

counted_iterator! { EliasFanoIter [] [], u64 }
counted_iterator! { EliasFanoRefIter ['a] ['a], u64 }

iterates! { EliasFanoVec, numbers, "numbers", u64, EliasFanoIter, EliasFanoRefIter }

impl Default for EliasFanoVec {
    fn default() -> Self {
        EliasFanoVec::from_slice(&[])
    }
}

impl TryFrom<&[u64]> for EliasFanoVec {
    type Error = BuildError;

    fn try_from(numbers: &[u64]) -> Result<Self, BuildError> {
        EliasFanoVec::try_from_slice(numbers)
    }
}

impl TryFrom<Vec<u64>> for EliasFanoVec {
    type Error = BuildError;

    fn try_from(numbers: Vec<u64>) -> Result<Self, BuildError> {
        EliasFanoVec::try_from_slice(&numbers)
    }
}
