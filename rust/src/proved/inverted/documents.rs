//! A walk along the documents of a term.

use crate::rattle::prelude::*;

use crate::proved::inverted::inverted_index::InvertedIndex;
use crate::proved::inverted::queries::document;
use crate::rattle::Allocator;
use crate::proved::vers_sorted::elias_fano::{EliasFanoRefIter, EliasFanoVec};
use crate::proved::vers_tally::tally::Tally;

/// An iterator over the documents of a term, which allocates nothing. Contracts see it as the documents `left`, and
/// the reads of a `step`, the bound on reading one of them.
pub struct Documents<'a, A: Allocator + Copy> {
    numbers: EliasFanoRefIter<'a, A>,
    term: u64,
    universe: u64,
}

impl<A: Allocator + Copy> InvertedIndex<A> {
    /// Returns an iterator over the documents of a term.
    pub fn documents(&self, t: u64) -> Documents<'_, A> {
        let mut tally = Tally::new();
        self.documents_counted(t, &mut tally)
    }

    /// Returns `documents(t)`. Reads at most one search among the numbers of all terms and one of these.
    pub fn documents_counted(&self, t: u64, tally: &mut Tally) -> Documents<'_, A> {
        if t >= self.terms {
            return Documents {
                numbers: self.numbers.iter(),
                term: 0,
                universe: 0,
            };
        }
        let first = self.numbers.rank_counted(t * self.universe, tally) as usize;
        Documents {
            numbers: elements_from(&self.numbers, first, tally),
            term: t,
            universe: self.universe,
        }
    }
}

// Returns an iterator over the elements of a list from a position on.
fn elements_from<'a, A: Allocator + Copy>(
    list: &'a EliasFanoVec<A>,
    first: usize,
    tally: &mut Tally,
) -> EliasFanoRefIter<'a, A> {
    let mut elements = list.iter();
    if first > 0 {
        elements.nth_counted(first - 1, tally);
    }
    elements
}

impl<'a, A: Allocator + Copy> Documents<'a, A> {
    /// Takes the first of the documents left. `None` if none is left.
    #[inline(always)]
    pub fn next(&mut self) -> Option<u64> {
        let mut tally = Tally::new();
        self.next_counted(&mut tally)
    }

    /// Does what `next` does. Reads at most one `step`.
    #[inline(always)]
    pub fn next_counted(&mut self, tally: &mut Tally) -> Option<u64> {
        let start = self.term * self.universe;
        let number = self.numbers.next_counted(tally);
        document(start, self.universe, number)
    }
}

impl<'a, A: Allocator + Copy> Iterator for Documents<'a, A> {
    type Item = u64;

    #[inline(always)]
    fn next(&mut self) -> Option<u64> {
        self.next()
    }
}
