//! Batches of queries of ascending lists.

use crate::rattle::prelude::*;

use super::{Batch, GROUP, in_groups};
use crate::programs::vers_c::asked::{Ask, Row, answer_each};
use crate::programs::catalogue::answer::Answer;
use crate::programs::catalogue::query::Query;
use crate::proved::inverted::InvertedIndex;
use crate::proved::postings::Postings;
use crate::rattle::Global;
use crate::proved::vers_sorted::elias_fano::EliasFanoVec;
use crate::proved::vers_sorted::sparse::SparseRSVec;

// Numbers of elements below numbers.
#[derive(Clone, Copy)]
struct Ranks;

impl Batch<EliasFanoVec<Global>, u64> for Ranks {
    #[inline(always)]
    fn of(self, ask: Ask) -> u64 {
        ask.a
    }

    #[inline(always)]
    fn ask_all(self, elements: &EliasFanoVec<Global>, numbers: &mut [u64]) {
        elements.rank_each(numbers)
    }

    #[inline(always)]
    fn answer(self, rank: u64) -> Answer {
        Answer::Found(rank)
    }
}

/// The element to be found from a number.
#[derive(Clone, Copy)]
pub enum Element {
    /// The one at a position.
    At,
    /// The greatest that is at most the number.
    Before,
    /// The least that is at least the number.
    After,
}

impl Batch<EliasFanoVec<Global>, Option<u64>> for Element {
    #[inline(always)]
    fn of(self, ask: Ask) -> Option<u64> {
        Some(ask.a)
    }

    #[inline(always)]
    fn ask_all(self, elements: &EliasFanoVec<Global>, numbers: &mut [Option<u64>]) {
        match self {
            Element::At => elements.get_each(numbers),
            Element::Before => elements.predecessor_each(numbers),
            Element::After => elements.successor_each(numbers),
        }
    }

    #[inline(always)]
    fn answer(self, element: Option<u64>) -> Answer {
        Answer::number_or_absent(element)
    }
}

// The positions of the ones of a list of bits by their numbers, or its length if there is no such one.
#[derive(Clone, Copy)]
struct Ones {
    len: u64,
}

impl Batch<EliasFanoVec<Global>, Option<u64>> for Ones {
    #[inline(always)]
    fn of(self, ask: Ask) -> Option<u64> {
        Some(ask.a)
    }

    #[inline(always)]
    fn ask_all(self, elements: &EliasFanoVec<Global>, numbers: &mut [Option<u64>]) {
        elements.get_each(numbers)
    }

    #[inline(always)]
    fn answer(self, element: Option<u64>) -> Answer {
        Answer::Found(element.unwrap_or(self.len))
    }
}

/// Replaces each row by the answer of an ascending list to its numbers, with a batch search for each frequent
/// query.
pub fn each_of_elements<R: Row>(
    elements: &EliasFanoVec<Global>,
    query: Query,
    rows: &mut [R],
    b: u64,
    c: u64,
    other: u64,
) {
    match query {
        Query::Get => find_each(elements, Element::At, rows, b, c, other),
        Query::Predecessor => find_each(elements, Element::Before, rows, b, c, other),
        Query::Successor => find_each(elements, Element::After, rows, b, c, other),
        Query::Rank => {
            let mut numbers = [0; GROUP];
            in_groups(Ranks, elements, &mut numbers, rows, b, c, other)
        }
        _ => answer_each(elements, query, rows, b, c, other),
    }
}

/// Does what `each_of_elements` does for a list of bits with few ones, whose positions are an ascending list.
pub fn each_of_ones<R: Row>(
    bits: &SparseRSVec<Global>,
    query: Query,
    rows: &mut [R],
    b: u64,
    c: u64,
    other: u64,
) {
    match query {
        Query::Select1 => {
            let ones = Ones { len: bits.len() };
            let mut numbers = [None; GROUP];
            in_groups(ones, bits.ones(), &mut numbers, rows, b, c, other)
        }
        _ => answer_each(bits, query, rows, b, c, other),
    }
}

/// Does what `each_of_elements` does for documents with costs, which are an ascending list.
pub fn each_of_documents<R: Row>(
    posted: &Postings<Global>,
    query: Query,
    rows: &mut [R],
    b: u64,
    c: u64,
    other: u64,
) {
    let documents = posted.documents();
    match query {
        Query::Get => each_of_elements(documents, Query::Get, rows, b, c, other),
        Query::Rank => each_of_elements(documents, Query::Rank, rows, b, c, other),
        Query::Successor => each_of_elements(documents, Query::Successor, rows, b, c, other),
        _ => answer_each(posted, query, rows, b, c, other),
    }
}

/// Does what `each_of_elements` does for an inverted index, whose pairs are an ascending list of numbers.
pub fn each_of_pairs<R: Row>(
    index: &InvertedIndex<Global>,
    query: Query,
    rows: &mut [R],
    b: u64,
    c: u64,
    other: u64,
) {
    match query {
        Query::Get => each_of_elements(index.pair_numbers(), Query::Get, rows, b, c, other),
        _ => answer_each(index, query, rows, b, c, other),
    }
}

// Does what `each_of_elements` does for the query of an element.
fn find_each<R: Row>(
    elements: &EliasFanoVec<Global>,
    element: Element,
    rows: &mut [R],
    b: u64,
    c: u64,
    other: u64,
) {
    let mut numbers = [None; GROUP];
    in_groups(element, elements, &mut numbers, rows, b, c, other)
}
