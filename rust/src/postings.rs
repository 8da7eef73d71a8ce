//! Documents with costs, which the crate vers-vecs doesn't have.

use crate::contracts::contract;
use crate::elias_fano::{EliasFanoRefIter, EliasFanoVec};
use crate::error::{granted, BuildError};
use crate::items::{check_ascending, compares, counted, shows};
use crate::proved::postings as proved;
use crate::rattle::Global;
use crate::reads::Tally;
use crate::saved::saved;
use std::iter::{Copied, Zip};
use std::slice;

/// An ascending list of documents, which are numbers, with a cost each. It finds the cheapest document of a range, and
/// those that two lists share.
///
/// ```
/// use vers_vecs::postings::Postings;
///
/// let list = Postings::from_sorted(&[2, 5, 9], &[30, 10, 20]).unwrap();
/// assert_eq!(list.next_at_least(3), Some(5));
/// assert_eq!(list.cheapest(6, 100), Some(9));
/// let other = Postings::from_sorted(&[5, 6, 9], &[1, 1, 1]).unwrap();
/// assert_eq!(list.intersect(&other), [5, 9]);
/// ```
pub struct Postings {
    list: proved::Postings<Global>,
}

impl Postings {
    /// Indexes documents with their costs, in O(`documents.len()`).
    ///
    /// # Errors
    /// `NotAscending` if a document isn't above the one before it, `LengthMismatch` if there are not as many costs,
    /// `TooLong` and `OutOfMemory`.
    #[doc = contract!(Postings::from_sorted)]
    pub fn from_sorted(documents: &[u64], costs: &[u64]) -> Result<Self, BuildError> {
        let costs = crate::rattle::Vec::from_slice(Global, costs)?;
        match proved::Postings::from_sorted(documents, costs) {
            Ok(list) => Ok(Postings { list }),
            Err(proved::PostingsError::NotAscending) => {
                check_ascending(documents, |one, next| one < next)?;
                Err(BuildError::NotAscending { position: 0 })
            }
            Err(proved::PostingsError::LengthMismatch) => Err(BuildError::LengthMismatch),
            Err(proved::PostingsError::TooLong) => Err(BuildError::TooLong),
            Err(proved::PostingsError::Memory) => Err(BuildError::OutOfMemory),
        }
    }

    /// Returns the number of documents.
    #[doc = contract!(Postings::len)]
    #[must_use]
    #[inline]
    pub fn len(&self) -> usize {
        self.list.len()
    }

    /// Returns true if there are no documents.
    #[doc = contract!(Postings::is_empty)]
    #[must_use]
    #[inline]
    pub fn is_empty(&self) -> bool {
        self.list.is_empty()
    }

    /// Returns the number of bytes on the heap.
    #[doc = contract!(Postings::heap_size)]
    #[must_use]
    pub fn heap_size(&self) -> usize {
        self.list.heap_size()
    }

    /// Returns the document at an index, or `None` past the end.
    #[doc = contract!(EliasFanoVec::get)]
    #[must_use]
    pub fn get(&self, i: usize) -> Option<u64> {
        self.list.documents().get(i)
    }

    /// Returns the cost of the document at an index, or `None` past the end.
    #[must_use]
    pub fn cost(&self, i: usize) -> Option<u64> {
        self.list.costs().get(i).copied()
    }

    /// Returns the costs, in the order of the documents.
    #[doc = contract!(Postings::costs)]
    #[must_use]
    pub fn costs(&self) -> &[u64] {
        self.list.costs()
    }

    /// Returns a copy of the documents, for [`sets`](crate::sets).
    ///
    /// ```
    /// use vers_vecs::{postings::Postings, sets};
    ///
    /// let one = Postings::from_sorted(&[2, 5, 9], &[30, 10, 20]).unwrap();
    /// let other = Postings::from_sorted(&[5, 6], &[1, 1]).unwrap();
    /// let either = sets::union(&one.documents(), &other.documents());
    /// assert_eq!(either.iter().collect::<Vec<_>>(), [2, 5, 6, 9]);
    /// ```
    #[doc = contract!(Postings::documents)]
    #[must_use]
    pub fn documents(&self) -> EliasFanoVec {
        EliasFanoVec { numbers: granted(crate::rattle::Clone::clone(self.list.documents())) }
    }

    /// Iterates over the documents with their costs, from both ends.
    pub fn iter(&self) -> Iter<'_> {
        EliasFanoRefIter(self.list.documents().iter()).zip(self.list.costs().iter().copied())
    }

    /// Returns true if the list has a document.
    #[doc = contract!(Postings::contains)]
    #[must_use]
    #[inline]
    pub fn contains(&self, document: u64) -> bool {
        self.list.contains(document)
    }

    /// Returns how many documents are less than `document`.
    #[doc = contract!(Postings::rank)]
    #[must_use]
    #[inline]
    pub fn rank(&self, document: u64) -> u64 {
        self.list.rank(document)
    }

    /// Returns the first document that is at least `document`, or `None` if there is none.
    #[doc = contract!(Postings::next_at_least)]
    #[must_use]
    #[inline]
    pub fn next_at_least(&self, document: u64) -> Option<u64> {
        self.list.next_at_least(document)
    }

    /// Returns the first document of least cost from `from` to `to`, both included, or `None` if there is none.
    #[doc = contract!(Postings::cheapest)]
    #[must_use]
    #[inline]
    pub fn cheapest(&self, from: u64, to: u64) -> Option<u64> {
        self.list.cheapest(from, to)
    }

    /// Returns the documents that both lists have, ascending.
    #[doc = contract!(Postings::intersect)]
    #[must_use]
    #[track_caller]
    pub fn intersect(&self, other: &Postings) -> Vec<u64> {
        granted(self.list.intersect(&other.list)).into_plain()
    }

    /// Does the same as [`intersect`](Self::intersect), and adds the reads to `tally`.
    #[doc = contract!(Postings::intersect_counted)]
    #[track_caller]
    pub fn intersect_counted(&self, other: &Postings, tally: &mut Tally) -> Vec<u64> {
        granted(self.list.intersect_counted(&other.list, &mut tally.0)).into_plain()
    }
}

counted! { Postings, list:
    contains_counted, contains(document: u64) -> bool;
    rank_counted, rank(document: u64) -> u64;
    next_at_least_counted, next_at_least(document: u64) -> Option<u64>;
    cheapest_counted, cheapest(from: u64, to: u64) -> Option<u64>;
}

/// An iterator over the documents of a list with their costs.
pub type Iter<'a> = Zip<EliasFanoRefIter<'a>, Copied<slice::Iter<'a, u64>>>;

impl<'a> IntoIterator for &'a Postings {
    type Item = (u64, u64);
    type IntoIter = Iter<'a>;

    fn into_iter(self) -> Iter<'a> {
        self.iter()
    }
}

impl Clone for Postings {
    #[track_caller]
    fn clone(&self) -> Self {
        Postings { list: granted(crate::rattle::Clone::clone(&self.list)) }
    }
}

impl Default for Postings {
    #[track_caller]
    fn default() -> Self {
        granted(Postings::from_sorted(&[], &[]))
    }
}

shows!(Postings, "documents", |list| list.iter());
compares!(Postings, |list| list.iter());
saved!(Postings, list);
