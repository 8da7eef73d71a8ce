//! Lists of documents of an inverted index: of one term, and of several.

use crate::rattle::prelude::*;

use crate::proved::inverted::InvertedIndex;
use crate::rattle::AllocError;
use crate::rattle::Allocator;

/// Which documents of several terms are listed.
#[derive(Clone, Copy)]
pub enum Joint {
    /// Those that have all terms.
    Intersection,
    /// Those that have at least one of the terms.
    Union,
    /// Those that have the first term and none of the others.
    Difference,
}

/// The `Joint` of each code of C, which is its index here.
pub const JOINTS: [Joint; 3] = [Joint::Intersection, Joint::Union, Joint::Difference];

impl Joint {
    // Returns the entry at a position of a table.
    fn at(table: &[Joint], position: usize) -> Option<Joint> {
        table.get(position).copied()
    }

    /// Returns the `Joint` of a code, or `None` if there is none.
    pub fn of(code: u32) -> Option<Joint> {
        Joint::at(&JOINTS, code as usize)
    }
}

/// Returns the documents of a term, ascending. Errors: `AllocError` if the allocator refuses a request.
pub fn documents_of<A: Allocator + Copy>(
    alloc: A,
    index: &InvertedIndex<A>,
    term: u64,
) -> Result<Vec<u64, A>, AllocError> {
    let mut found = Vec::with_capacity(alloc, index.count(term) as usize)?;
    let mut documents = index.documents(term);
    while let Some(document) = documents.next() {
        found.push(document)?;
    }
    Ok(found)
}

/// Returns documents of a term and others, ascending. An intersection takes the fewest steps if the first term has the
/// fewest documents. Errors: `AllocError` if the allocator refuses a request.
pub fn joined_documents<A: Allocator + Copy>(
    alloc: A,
    index: &InvertedIndex<A>,
    joint: Joint,
    first: u64,
    others: &[u64],
) -> Result<Vec<u64, A>, AllocError> {
    match joint {
        Joint::Intersection => index.intersection_numbers(alloc, first, others),
        Joint::Union => index.union_numbers(alloc, first, others),
        Joint::Difference => index.difference_numbers(alloc, first, others),
    }
}
