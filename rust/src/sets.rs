//! Intersections, unions and differences of ascending lists, which the crate vers-vecs doesn't have. Equal numbers of a
//! list count once, and a result has no equal numbers.
//!
//! ```
//! use vers_vecs::{sets, EliasFanoVec};
//!
//! let even = EliasFanoVec::from_slice(&[0, 2, 4, 6, 8, 10]);
//! let triple = EliasFanoVec::from_slice(&[0, 3, 6, 9]);
//! assert_eq!(sets::intersection(&even, &triple).iter().collect::<Vec<_>>(), [0, 6]);
//! assert_eq!(sets::union(&even, &triple).len(), 8);
//! assert_eq!(sets::difference(&triple, &even).iter().collect::<Vec<_>>(), [3, 9]);
//! let nine = EliasFanoVec::from_slice(&[9]);
//! assert_eq!(sets::difference_of(&triple, &[&even, &nine]).iter().collect::<Vec<_>>(), [3]);
//! ```

use crate::contracts::contract;
use crate::elias_fano::EliasFanoVec;
use crate::error::granted;
use crate::proved::sets as proved;
use crate::proved::vers_sorted::elias_fano as lists;
use crate::rattle::Global;

/// Returns the numbers that are in both lists, with at most n + 1 searches in each, where n is the length of the
/// shorter one.
#[doc = contract!(intersection)]
#[must_use]
pub fn intersection(one: &EliasFanoVec, other: &EliasFanoVec) -> EliasFanoVec {
    made(proved::intersection(Global, &one.numbers, &other.numbers))
}

/// Returns the numbers that are in one of two lists, or in both, with at most n + 1 searches in each, where n is the
/// length of both.
#[doc = contract!(union)]
#[must_use]
pub fn union(one: &EliasFanoVec, other: &EliasFanoVec) -> EliasFanoVec {
    made(proved::union(Global, &one.numbers, &other.numbers))
}

/// Returns the numbers of the first list that are not in the other, with at most n + 1 searches in each, where n is the
/// length of the first.
#[doc = contract!(difference)]
#[must_use]
pub fn difference(one: &EliasFanoVec, other: &EliasFanoVec) -> EliasFanoVec {
    made(proved::difference(Global, &one.numbers, &other.numbers))
}

/// Returns the numbers that are in the first list and in each of the others, with at most n + 1 searches in each, where
/// n is the length of the first: put the shortest list first.
#[doc = contract!(intersection_of)]
#[must_use]
pub fn intersection_of(first: &EliasFanoVec, others: &[&EliasFanoVec]) -> EliasFanoVec {
    made(proved::intersection_of(Global, &first.numbers, &numbers_of(others)))
}

/// Returns the numbers that are in the first list or in one of the others, with at most n + 1 searches in each, where n
/// is the length of all.
#[doc = contract!(union_of)]
#[must_use]
pub fn union_of(first: &EliasFanoVec, others: &[&EliasFanoVec]) -> EliasFanoVec {
    made(proved::union_of(Global, &first.numbers, &numbers_of(others)))
}

/// Returns the numbers of the first list that are in none of the others, with at most n + 1 searches in each, where n
/// is the length of the first.
#[doc = contract!(difference_of)]
#[must_use]
pub fn difference_of(first: &EliasFanoVec, others: &[&EliasFanoVec]) -> EliasFanoVec {
    made(proved::difference_of(Global, &first.numbers, &numbers_of(others)))
}

/// Returns the proved structures of lists.
fn numbers_of<'a>(lists: &[&'a EliasFanoVec]) -> Vec<&'a lists::EliasFanoVec<Global>> {
    lists.iter().map(|list| &list.numbers).collect()
}

/// Returns a list that was made.
#[track_caller]
fn made(numbers: Result<lists::EliasFanoVec<Global>, crate::rattle::AllocError>) -> EliasFanoVec {
    EliasFanoVec { numbers: granted(numbers) }
}
