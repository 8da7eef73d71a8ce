//! The list of documents and its constructor.

use crate::rattle::prelude::*;

use crate::proved::postings::fault::PostingsError;
use crate::rattle::AllocError;
use crate::rattle::Allocator;
use crate::proved::vers_rmq::rmq::fast_rmq::{FastRmq, MAX_LEN};
use crate::proved::vers_sorted::elias_fano::EliasFanoVec;
use crate::proved::vers_sorted::order::is_strictly_ascending;

/// Documents, each a number, with a cost each. Contracts see a `Postings` as the list of its documents, which
/// ascend strictly, and the list of their costs.
///
/// It stores the documents in high and low parts, and the costs with an index for range minimum queries.
pub struct Postings<A: Allocator + Copy> {
    pub(crate) documents: EliasFanoVec<A>,
    pub(crate) costs: FastRmq<A>,
}

impl<A: Allocator + Copy> Clone for Postings<A> {
    /// Returns a copy of the documents and costs.
    fn clone(&self) -> Result<Self, AllocError> {
        let costs = self.costs.clone()?;
        let (documents, costs) = second_beside(&self.documents, costs)?;
        Ok(Postings { documents, costs })
    }
}

impl<A: Allocator + Copy> Postings<A> {
    /// Returns the documents with their costs. Drops the costs on error.
    ///
    /// # Errors
    ///
    /// The first that applies, in the order of `PostingsError`. All except `Memory` precede any allocation.
    pub fn from_sorted(documents: &[u64], costs: Vec<u64, A>) -> Result<Self, PostingsError> {
        check(documents, costs.as_slice())?;
        let alloc = *costs.allocator();
        let costs = FastRmq::from_vec(costs)?;
        let (documents, costs) = documents_beside(alloc, documents, costs)?;
        Ok(Postings { documents, costs })
    }

    /// Returns the documents, as the ascending list that stores them.
    #[inline]
    pub fn documents(&self) -> &EliasFanoVec<A> {
        &self.documents
    }

    /// Returns the cost of each document, at the document's position.
    #[inline]
    pub fn costs(&self) -> &[u64] {
        self.costs.as_slice()
    }

    /// Returns the number of bytes of the heap that the list takes; the greatest `usize` if they are more.
    pub fn heap_size(&self) -> usize {
        self.documents
            .heap_size()
            .saturating_add(self.costs.heap_size())
    }

    /// Returns the number of documents.
    #[inline]
    pub fn len(&self) -> usize {
        self.documents.len()
    }

    /// Returns true if there are no documents.
    #[inline]
    pub fn is_empty(&self) -> bool {
        self.documents.is_empty()
    }
}

// Tests whether the list can be made, in the order of `PostingsError`.
fn check(documents: &[u64], costs: &[u64]) -> Result<(), PostingsError> {
    if documents.len() != costs.len() {
        return Err(PostingsError::LengthMismatch);
    }
    if documents.len() > MAX_LEN {
        return Err(PostingsError::TooLong);
    }
    if !is_strictly_ascending(documents) {
        return Err(PostingsError::NotAscending);
    }
    Ok(())
}

// Returns a list of documents together with another part, which is dropped on error.
fn documents_beside<A: Allocator + Copy, C: Sized>(
    alloc: A,
    documents: &[u64],
    costs: C,
) -> Result<(EliasFanoVec<A>, C), AllocError> {
    Ok((EliasFanoVec::from_slice(alloc, documents)?, costs))
}

// Returns a copy of a list of documents together with another part, which is dropped on error.
fn second_beside<A: Allocator + Copy, C: Sized>(
    documents: &EliasFanoVec<A>,
    costs: C,
) -> Result<(EliasFanoVec<A>, C), AllocError> {
    Ok((documents.clone()?, costs))
}
