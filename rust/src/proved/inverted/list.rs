//! The list of a term as a source.

use crate::rattle::prelude::*;

use crate::proved::inverted::inverted_index::InvertedIndex;
use crate::proved::sets::{Cursor, Seek, Step};
use crate::rattle::Allocator;
use crate::proved::vers_tally::tally::Tally;

/// The documents of a term, as a source, which the sources of `sets` combine with others. Contracts see it as the
/// index and the term.
pub struct ListOf<'a, A: Allocator + Copy> {
    index: &'a InvertedIndex<A>,
    term: u64,
    cursor: Cursor<'a, A>,
}

impl<'a, A: Allocator + Copy> ListOf<'a, A> {
    /// Returns the documents of a term: none if there is no such term.
    pub fn new(index: &'a InvertedIndex<A>, term: u64) -> Self {
        ListOf {
            index,
            term,
            cursor: index.cursor(),
        }
    }
}

impl<'a, A: Allocator + Copy> Seek for ListOf<'a, A> {
    fn seek_counted(&mut self, at: u64, tally: &mut Tally) -> Step {
        self.index
            .step_counted(self.term, at, &mut self.cursor, tally)
    }
}

impl<A: Allocator + Copy> InvertedIndex<A> {
    // Returns a cursor at the first number of all terms.
    fn cursor(&self) -> Cursor<'_, A> {
        Cursor::new(&self.numbers)
    }

    // Takes one step of a search for the first document of a term that is at least `at`, by a cursor over the numbers
    // of all terms.
    fn step_counted(&self, t: u64, at: u64, cursor: &mut Cursor<'_, A>, tally: &mut Tally) -> Step {
        if t >= self.terms {
            return Step::Ended;
        }
        if at >= self.universe {
            return Step::Ended;
        }
        let start = t * self.universe;
        let step = cursor.seek_counted(start + at, tally);
        step_in(start, self.universe, step)
    }
}

// Returns the step to a number from `start` on as one to its document, which ends the search past the term.
#[inline(always)]
fn step_in(start: u64, universe: u64, step: Step) -> Step {
    let end = start + universe;
    match step {
        Step::Found(number) if number < end => Step::Found(number.saturating_sub(start)),
        Step::Past(number) if number < end => Step::Past(number.saturating_sub(start)),
        _ => Step::Ended,
    }
}
