//! The constructors.

use crate::rattle::prelude::*;

use crate::proved::inverted::fault::InvertedError;
use crate::proved::inverted::inverted_index::InvertedIndex;
use crate::rattle::AllocError;
use crate::rattle::Allocator;
use crate::proved::vers_sorted::elias_fano::EliasFanoVec;

/// Pairs of a term and a document that are read one by one, and once more from a copy.
pub trait Pairs: Copy {
    /// Takes the first of the pairs left. `None` if none is left.
    fn next(&mut self) -> Option<(u64, u64)>;
}

// The pairs of a slice.
#[derive(Clone, Copy)]
struct SlicePairs<'a> {
    rest: &'a [(u64, u64)],
}

impl Pairs for SlicePairs<'_> {
    #[inline]
    fn next(&mut self) -> Option<(u64, u64)> {
        let (first, others) = self.rest.split_first()?;
        self.rest = others;
        Some(*first)
    }
}

impl<A: Allocator + Copy> InvertedIndex<A> {
    /// Returns the index of pairs of a term below `terms` and a document below `universe`. The pairs ascend strictly,
    /// by term and then by document.
    ///
    /// # Errors
    ///
    /// The first that applies, in the order of `InvertedError`. All except `Memory` precede any allocation.
    pub fn from_pairs(
        alloc: A,
        terms: u64,
        universe: u64,
        pairs: &[(u64, u64)],
    ) -> Result<Self, InvertedError> {
        let rest = SlicePairs { rest: pairs };
        InvertedIndex::from_known(alloc, terms, universe, rest, pairs.len())
    }

    /// Returns the index of pairs from a source, as `from_pairs` does. Errors: as for `from_pairs`.
    pub fn from_source<P: Pairs>(
        alloc: A,
        terms: u64,
        universe: u64,
        pairs: P,
    ) -> Result<Self, InvertedError> {
        InvertedIndex::from_known(alloc, terms, universe, pairs, 0)
    }

    // Returns what `from_source` does, with room for the `known` number of pairs from the start.
    fn from_known<P: Pairs>(
        alloc: A,
        terms: u64,
        universe: u64,
        pairs: P,
        known: usize,
    ) -> Result<Self, InvertedError> {
        if let Some(error) = refusal(terms, universe, pairs) {
            return Err(error);
        }
        let numbers = numbers_of(alloc, terms, universe, pairs, known)?;
        let numbers = EliasFanoVec::from_slice(alloc, numbers.as_slice())?;
        Ok(InvertedIndex {
            numbers,
            universe,
            terms,
        })
    }
}

/// Returns the first error of pairs that have no index, in the order of `InvertedError`. `None` if they have one.
pub fn refusal<P: Pairs>(terms: u64, universe: u64, pairs: P) -> Option<InvertedError> {
    if terms.checked_mul(universe).is_none() {
        return Some(InvertedError::TooLarge);
    }
    if !are_in_range(terms, universe, pairs) {
        return Some(InvertedError::OutOfRange);
    }
    if !do_ascend(pairs) {
        return Some(InvertedError::NotAscending);
    }
    None
}

// Returns true if terms and documents are below their limits.
fn are_in_range<P: Pairs>(terms: u64, universe: u64, mut pairs: P) -> bool {
    while let Some(pair) = pairs.next() {
        if pair.0 >= terms || pair.1 >= universe {
            return false;
        }
    }
    true
}

// Returns true if each pair is before the next one.
fn do_ascend<P: Pairs>(mut pairs: P) -> bool {
    let mut last = match pairs.next() { Some(last) => last, _ => {
        return true;
    } };
    while let Some(pair) = pairs.next() {
        if !is_before(last, pair) {
            return false;
        }
        last = pair;
    }
    true
}

// Returns true if a pair is before another.
fn is_before(one: (u64, u64), other: (u64, u64)) -> bool {
    one.0 < other.0 || (one.0 == other.0 && one.1 < other.1)
}

// Returns the numbers of pairs, with room for the `known` number of them from the start.
fn numbers_of<A: Allocator + Copy, P: Pairs>(
    alloc: A,
    terms: u64,
    universe: u64,
    mut pairs: P,
    known: usize,
) -> Result<Vec<u64, A>, AllocError> {
    let mut numbers = Vec::with_capacity(alloc, known)?;
    while let Some(pair) = pairs.next() {
        numbers.push(pair.0 * universe + pair.1)?;
    }
    Ok(numbers)
}
