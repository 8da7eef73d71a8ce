//! An index as the list of its numbers.

use crate::rattle::prelude::*;

use crate::proved::inverted::fault::InvertedError;
use crate::proved::inverted::inverted_index::InvertedIndex;
use crate::rattle::Allocator;
use crate::proved::vers_sorted::elias_fano::EliasFanoVec;

impl<A: Allocator + Copy> InvertedIndex<A> {
    /// Returns the list of the numbers of all pairs: document `d` of term `t` is the number `t * universe + d`.
    #[inline]
    pub fn pair_numbers(&self) -> &EliasFanoVec<A> {
        &self.numbers
    }

    /// Returns the index of these numbers, which ascend strictly and are below `terms * universe`: number `n` is
    /// document `n % universe` of term `n / universe`. Allocates nothing. Errors: tested in the order of
    /// `InvertedError`, and never `Memory`.
    pub fn from_numbers(
        terms: u64,
        universe: u64,
        numbers: EliasFanoVec<A>,
    ) -> Result<Self, InvertedError> {
        if let Some(error) = refusal_of_numbers(terms, universe, &numbers) {
            return Err(error);
        }
        Ok(InvertedIndex {
            numbers,
            universe,
            terms,
        })
    }
}

// Returns the first error of numbers that no index has. `None` if an index has them.
fn refusal_of_numbers<A: Allocator + Copy>(
    terms: u64,
    universe: u64,
    numbers: &EliasFanoVec<A>,
) -> Option<InvertedError> {
    let end = match terms.checked_mul(universe) { Some(end) => end, _ => {
        return Some(InvertedError::TooLarge);
    } };
    if numbers.successor(end).is_some() {
        return Some(InvertedError::OutOfRange);
    }
    if !do_rise(numbers) {
        return Some(InvertedError::NotAscending);
    }
    None
}

// Returns true if each number is below the next one.
fn do_rise<A: Allocator + Copy>(numbers: &EliasFanoVec<A>) -> bool {
    let mut others = numbers.iter();
    let mut last = match others.next() { Some(last) => last, _ => {
        return true;
    } };
    while let Some(number) = others.next() {
        if last >= number {
            return false;
        }
        last = number;
    }
    true
}
