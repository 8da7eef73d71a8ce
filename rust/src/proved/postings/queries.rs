//! Queries of a list of documents.

use crate::rattle::prelude::*;

use crate::proved::postings::postings::Postings;
use crate::rattle::AllocError;
use crate::rattle::Allocator;
use crate::proved::vers_sorted::elias_fano::{EliasFanoVec, by_length};
use crate::proved::vers_tally::tally::Tally;

impl<A: Allocator + Copy> Postings<A> {
    /// Returns true if a document is in the list.
    #[inline]
    pub fn contains(&self, document: u64) -> bool {
        self.documents.has(document)
    }

    /// Returns `contains(document)`. Reads at most what one search among the documents does.
    #[inline(always)]
    pub fn contains_counted(&self, document: u64, tally: &mut Tally) -> bool {
        self.documents.has_counted(document, tally)
    }

    /// Returns the number of documents below a number.
    #[inline]
    pub fn rank(&self, document: u64) -> u64 {
        self.documents.rank(document)
    }

    /// Returns `rank(document)`. Reads at most what one search among the documents does.
    #[inline(always)]
    pub fn rank_counted(&self, document: u64, tally: &mut Tally) -> u64 {
        self.documents.rank_counted(document, tally)
    }

    /// Returns the first document that is at least a number, or `None` if there is none.
    #[inline]
    pub fn next_at_least(&self, document: u64) -> Option<u64> {
        self.documents.successor(document)
    }

    /// Returns `next_at_least(document)`. Reads at most what one search among the documents does.
    #[inline(always)]
    pub fn next_at_least_counted(&self, document: u64, tally: &mut Tally) -> Option<u64> {
        self.documents.successor_counted(document, tally)
    }

    /// Returns the first document of least cost among those from `from` to `to`, both included. `None` if there
    /// is none.
    #[inline]
    pub fn cheapest(&self, from: u64, to: u64) -> Option<u64> {
        let mut tally = Tally::new();
        self.cheapest_counted(from, to, &mut tally)
    }

    /// Returns `cheapest(from, to)`. Reads at most what two searches among the documents do, 18 costs and one
    /// document.
    #[inline(always)]
    pub fn cheapest_counted(&self, from: u64, to: u64, tally: &mut Tally) -> Option<u64> {
        let start = self.documents.rank_counted(from, tally) as usize;
        let end = up_to(&self.documents, to, tally);
        if start >= end {
            return None;
        }
        let position = self.costs.range_min_counted(start, end - 1, tally);
        self.documents.get_counted(position, tally)
    }

    /// Returns the documents that are in both lists, ascending, in this list's allocator. Errors: `AllocError`
    /// if the allocator refuses a request.
    pub fn intersect(&self, other: &Postings<A>) -> Result<Vec<u64, A>, AllocError> {
        let mut tally = Tally::new();
        self.intersect_counted(other, &mut tally)
    }

    /// Returns `intersect(other)`. Reads at most, for each document of the shorter list, that document and
    /// what one search in the longer list does.
    pub fn intersect_counted(
        &self,
        other: &Postings<A>,
        tally: &mut Tally,
    ) -> Result<Vec<u64, A>, AllocError> {
        let (shorter, longer) = by_length(&self.documents, &other.documents);
        common_documents(self.costs.allocator(), shorter, longer, tally)
    }
}

// Returns the number of documents that are at most a number, by one search.
#[inline(always)]
fn up_to<A: Allocator + Copy>(documents: &EliasFanoVec<A>, to: u64, tally: &mut Tally) -> usize {
    match to.checked_add(1) {
        Some(above) => documents.rank_counted(above, tally) as usize,
        None => documents.len(),
    }
}

// Returns the documents of the shorter list that are in the longer one too, in one walk along the shorter.
#[inline(always)]
fn common_documents<A: Allocator + Copy>(
    alloc: A,
    shorter: &EliasFanoVec<A>,
    longer: &EliasFanoVec<A>,
    tally: &mut Tally,
) -> Result<Vec<u64, A>, AllocError> {
    let mut found = Vec::new(alloc);
    let mut documents = shorter.iter();
    for _ in 0..shorter.len() {
        let document = match documents.next_counted(tally) { Some(document) => document, _ => {
            break;
        } };
        if longer.has_counted(document, tally) {
            found.push(document)?;
        }
    }
    Ok(found)
}
