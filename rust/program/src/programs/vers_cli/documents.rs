//! The load line of documents with costs.

use crate::rattle::prelude::*;

use crate::programs::vers_cli::name::Load;
use crate::programs::vers_cli::sorted::Rise;
use crate::programs::catalogue::structure::Structure;
use crate::proved::postings::{Postings, PostingsError};
use crate::rattle::AllocError;
use crate::rattle::Allocator;
use crate::proved::vers_rmq::rmq::fast_rmq::MAX_LEN;
use crate::programs::vers_words::arguments::{count_numbers, no_arguments};
use crate::programs::vers_words::loading::Loading;
use crate::programs::vers_words::text::{number, split_first_word};

/// Returns true if the load line `postings d c ..` is accepted.
pub fn is_accepted(arguments: &[u8]) -> bool {
    match ascending_documents(arguments) {
        None => false,
        Some(count) => count <= MAX_LEN,
    }
}

/// Returns the result of the load line `postings d c ..`. Errors: `AllocError` if the allocator refuses a
/// request.
pub fn load<'a, A: Allocator + Copy>(
    alloc: &'a A,
    arguments: &[u8],
) -> Result<Loading<Structure<'a, A>>, AllocError> {
    let Some(Pairs { documents, costs }) = all_pairs(*alloc, arguments)? else {
        return Ok(Loading::Malformed);
    };
    match admitted(documents.as_slice(), costs) {
        Ok(None) => Ok(Loading::Inadmissible),
        Ok(Some(postings)) => Ok(Loading::Accepted(Structure::Postings(postings))),
        Err(error) => Err(error),
    }
}

// Documents, and the cost of each.
struct Pairs<A: Allocator> {
    documents: Vec<u64, A>,
    costs: Vec<u64, A>,
}

// Returns the documents and costs of a line, which alternate. `None` if a word is no number below 2^64, or the
// last document has no cost.
fn all_pairs<A: Allocator + Copy>(
    alloc: A,
    arguments: &[u8],
) -> Result<Option<Pairs<A>>, AllocError> {
    let Some(count) = count_numbers(arguments) else {
        return Ok(None);
    };
    let mut pairs = Pairs {
        documents: Vec::with_capacity(alloc, count / 2)?,
        costs: Vec::with_capacity(alloc, count / 2)?,
    };
    match pairs.fill(arguments)? {
        None => Ok(None),
        Some(()) => Ok(Some(pairs)),
    }
}

impl<A: Allocator> Pairs<A> {
    // Appends the documents and costs of a line, which alternate. `None` if a word is no number below 2^64, or
    // the last document has no cost. Precondition: there are none yet.
    fn fill(&mut self, arguments: &[u8]) -> Result<Option<()>, AllocError> {
        let mut rest = arguments;
        while let Some((document, cost, others)) = split_first_pair(rest) {
            self.documents.push(document)?;
            self.costs.push(cost)?;
            rest = others;
        }
        Ok(no_arguments(rest))
    }
}

/// Returns the two numbers at the beginning of a text, such as a document and its cost, and the text after them. `None`
/// if it doesn't begin with two numbers below 2^64.
pub fn split_first_pair(text: &[u8]) -> Option<(u64, u64, &[u8])> {
    let (word, others) = split_first_word(text)?;
    let (cost_word, more) = split_first_word(others)?;
    let document = number(word)?;
    let cost = number(cost_word)?;
    Some((document, cost, more))
}

// Returns the number of documents of a line, each with its cost. `None` if the words are others, or the
// documents don't ascend strictly.
fn ascending_documents(arguments: &[u8]) -> Option<usize> {
    let mut rise = Rise { len: 0, last: 0 };
    let mut rest = arguments;
    while let Some((last, _, others)) = split_first_pair(rest) {
        if !rise.admits(last, true) {
            return None;
        }
        let len = rise.len + 1;
        rise = Rise { len, last };
        rest = others;
    }
    match no_arguments(rest) {
        None => None,
        Some(()) => Some(rise.len),
    }
}

/// Returns documents with their costs. `None` if the documents don't ascend strictly or are too many.
pub fn admitted<A: Allocator + Copy>(
    documents: &[u64],
    costs: Vec<u64, A>,
) -> Result<Option<Postings<A>>, AllocError> {
    match Postings::from_sorted(documents, costs) {
        Ok(postings) => Ok(Some(postings)),
        Err(PostingsError::LengthMismatch) => Ok(None),
        Err(PostingsError::TooLong) => Ok(None),
        Err(PostingsError::NotAscending) => Ok(None),
        Err(PostingsError::Memory) => Err(AllocError),
    }
}
