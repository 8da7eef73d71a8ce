//! The index.

use crate::rattle::prelude::*;

use crate::rattle::AllocError;
use crate::rattle::Allocator;
use crate::proved::vers_sorted::elias_fano::EliasFanoVec;

/// Lists of documents, one for each term, which ascend strictly. Terms and documents are numbers. Contracts see
/// an `InvertedIndex` as its lists, the number that all documents are below, and the numbers that are stored.
///
/// It stores document `d` of term `t` as the number `t * universe + d` in one ascending list.
pub struct InvertedIndex<A: Allocator + Copy> {
    pub(crate) numbers: EliasFanoVec<A>,
    pub(crate) universe: u64,
    pub(crate) terms: u64,
}

impl<A: Allocator + Copy> Clone for InvertedIndex<A> {
    /// Returns a copy of the index.
    fn clone(&self) -> Result<Self, AllocError> {
        let numbers = self.numbers.clone()?;
        Ok(InvertedIndex {
            numbers,
            universe: self.universe,
            terms: self.terms,
        })
    }
}

impl<A: Allocator + Copy> InvertedIndex<A> {
    /// Returns the number of terms.
    #[inline]
    pub fn terms(&self) -> u64 {
        self.terms
    }

    /// Returns the number that all documents are below.
    #[inline]
    pub fn universe(&self) -> u64 {
        self.universe
    }

    /// Returns the number of pairs of a term and a document.
    #[inline]
    pub fn len(&self) -> usize {
        self.numbers.len()
    }

    /// Returns the number of bytes that the lists take.
    pub fn heap_size(&self) -> usize {
        self.numbers.heap_size()
    }
}
