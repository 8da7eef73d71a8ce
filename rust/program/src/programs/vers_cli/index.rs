//! The load line of an inverted index.

use crate::rattle::prelude::*;

use crate::programs::vers_cli::documents::split_first_pair;
use crate::programs::vers_cli::name::Load;
use crate::programs::catalogue::structure::Structure;
use crate::proved::inverted::{InvertedError, InvertedIndex, Pairs, refusal};
use crate::rattle::AllocError;
use crate::rattle::Allocator;
use crate::programs::vers_words::arguments::count_numbers;
use crate::programs::vers_words::loading::Loading;
use crate::programs::vers_words::text::{number, split_first_word};

// The pairs of the numbers of a text, up to the first word that is no number.
#[derive(Clone, Copy)]
struct LinePairs<'a> {
    rest: &'a [u8],
}

impl Pairs for LinePairs<'_> {
    fn next(&mut self) -> Option<(u64, u64)> {
        let (term, document, others) = split_first_pair(self.rest)?;
        self.rest = others;
        Some((term, document))
    }
}

// The limits of terms and documents, and the pairs of a line.
#[derive(Clone, Copy)]
struct Parts<'a> {
    terms: u64,
    universe: u64,
    pairs: LinePairs<'a>,
}

// Returns the limits and the pairs of a line. `None` if a word is no number below 2^64, there are not two limits, or
// the last term has no document.
fn parts_of(arguments: &[u8]) -> Option<Parts<'_>> {
    let (first, others) = split_first_word(arguments)?;
    let (second, rest) = split_first_word(others)?;
    let terms = number(first)?;
    let universe = number(second)?;
    let count = count_numbers(rest)?;
    if count % 2 == 0 {
        let pairs = LinePairs { rest };
        Some(Parts {
            terms,
            universe,
            pairs,
        })
    } else {
        None
    }
}

/// Returns true if the load line `inverted TERMS UNIVERSE t d ..` is accepted.
pub fn is_accepted(arguments: &[u8]) -> bool {
    match parts_of(arguments) {
        None => false,
        Some(parts) => refusal(parts.terms, parts.universe, parts.pairs).is_none(),
    }
}

/// Returns the result of the load line `inverted TERMS UNIVERSE t d ..`. Errors: `AllocError` if the allocator
/// refuses a request.
pub fn load<'a, A: Allocator + Copy>(
    alloc: &'a A,
    arguments: &[u8],
) -> Result<Loading<Structure<'a, A>>, AllocError> {
    let Some(parts) = parts_of(arguments) else {
        return Ok(Loading::Malformed);
    };
    match InvertedIndex::from_source(*alloc, parts.terms, parts.universe, parts.pairs) {
        Ok(index) => Ok(Loading::Accepted(Structure::Inverted(index))),
        Err(InvertedError::Memory) => Err(AllocError),
        Err(_) => Ok(Loading::Inadmissible),
    }
}
