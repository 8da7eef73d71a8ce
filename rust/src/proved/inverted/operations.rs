//! Intersections, unions and differences of the lists of terms.

use crate::rattle::prelude::*;

use crate::proved::inverted::inverted_index::InvertedIndex;
use crate::proved::inverted::list::ListOf;
use crate::proved::sets::{AllOf, AnyOf, Both, Either, Without, collect, numbers_of};
use crate::rattle::AllocError;
use crate::rattle::Allocator;
use crate::proved::vers_sorted::elias_fano::EliasFanoVec;

impl<A: Allocator + Copy> InvertedIndex<A> {
    /// Returns the documents that have both terms. Errors: `AllocError` only if the allocator refuses a request.
    pub fn intersection(
        &self,
        alloc: A,
        one: u64,
        other: u64,
    ) -> Result<EliasFanoVec<A>, AllocError> {
        let (rarer, commoner) = rarer_first(self, one, other);
        let both = Both {
            one: ListOf::new(self, rarer),
            other: ListOf::new(self, commoner),
        };
        collect(alloc, both)
    }

    /// Returns the documents that have one of two terms, or both. Errors: `AllocError` only if the allocator
    /// refuses a request.
    pub fn union(&self, alloc: A, one: u64, other: u64) -> Result<EliasFanoVec<A>, AllocError> {
        let either = Either {
            one: ListOf::new(self, one),
            other: ListOf::new(self, other),
        };
        collect(alloc, either)
    }

    /// Returns the documents that have the first term and not the other. Errors: `AllocError` only if the
    /// allocator refuses a request.
    pub fn difference(&self, alloc: A, one: u64, other: u64) -> Result<EliasFanoVec<A>, AllocError> {
        let without = Without {
            one: ListOf::new(self, one),
            other: ListOf::new(self, other),
        };
        collect(alloc, without)
    }

    /// Returns the documents that have the first term and each of the others. The fewer documents the first has,
    /// the fewer searches. Errors: `AllocError` only if the allocator refuses a request.
    pub fn intersection_of(
        &self,
        alloc: A,
        first: u64,
        others: &[u64],
    ) -> Result<EliasFanoVec<A>, AllocError> {
        let found = self.intersection_numbers(alloc, first, others)?;
        EliasFanoVec::from_slice(alloc, found.as_slice())
    }

    /// Returns the elements of `intersection_of(alloc, first, others)`. Errors: `AllocError` only if the allocator
    /// refuses a request.
    pub fn intersection_numbers(
        &self,
        alloc: A,
        first: u64,
        others: &[u64],
    ) -> Result<Vec<u64, A>, AllocError> {
        let others = lists_of(alloc, self, others)?;
        let all = AllOf {
            first: ListOf::new(self, first),
            others,
        };
        numbers_of(alloc, all)
    }

    /// Returns the documents that have the first term or one of the others. Errors: `AllocError` only if the
    /// allocator refuses a request.
    pub fn union_of(
        &self,
        alloc: A,
        first: u64,
        others: &[u64],
    ) -> Result<EliasFanoVec<A>, AllocError> {
        let found = self.union_numbers(alloc, first, others)?;
        EliasFanoVec::from_slice(alloc, found.as_slice())
    }

    /// Returns the elements of `union_of(alloc, first, others)`. Errors: `AllocError` only if the allocator refuses a
    /// request.
    pub fn union_numbers(
        &self,
        alloc: A,
        first: u64,
        others: &[u64],
    ) -> Result<Vec<u64, A>, AllocError> {
        let others = lists_of(alloc, self, others)?;
        let any = AnyOf {
            first: ListOf::new(self, first),
            others,
        };
        numbers_of(alloc, any)
    }

    /// Returns the documents that have the first term and none of the others. Errors: `AllocError` only if the
    /// allocator refuses a request.
    pub fn difference_of(
        &self,
        alloc: A,
        first: u64,
        others: &[u64],
    ) -> Result<EliasFanoVec<A>, AllocError> {
        let found = self.difference_numbers(alloc, first, others)?;
        EliasFanoVec::from_slice(alloc, found.as_slice())
    }

    /// Returns the elements of `difference_of(alloc, first, others)`. Errors: `AllocError` only if the allocator
    /// refuses a request.
    pub fn difference_numbers(
        &self,
        alloc: A,
        first: u64,
        others: &[u64],
    ) -> Result<Vec<u64, A>, AllocError> {
        let (second, rest) = match others.split_first() { Some((second, rest)) => (second, rest), _ => {
            return numbers_of(alloc, ListOf::new(self, first));
        } };
        let others = lists_of(alloc, self, rest)?;
        let remaining = Without {
            one: ListOf::new(self, first),
            other: AnyOf {
                first: ListOf::new(self, *second),
                others,
            },
        };
        numbers_of(alloc, remaining)
    }
}

// Returns two terms, the one with fewer documents first.
fn rarer_first<A: Allocator + Copy>(index: &InvertedIndex<A>, one: u64, other: u64) -> (u64, u64) {
    if index.count(one) <= index.count(other) {
        (one, other)
    } else {
        (other, one)
    }
}

// Returns the list of each term, as a source.
fn lists_of<'a, A: Allocator + Copy>(
    alloc: A,
    index: &'a InvertedIndex<A>,
    terms: &[u64],
) -> Result<Vec<ListOf<'a, A>, A>, AllocError> {
    let mut lists = Vec::new(alloc);
    for term in terms {
        lists.push(ListOf::new(index, *term))?;
    }
    Ok(lists)
}
