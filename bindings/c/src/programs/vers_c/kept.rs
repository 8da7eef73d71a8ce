//! The structures of handles.

use crate::rattle::prelude::*;

use crate::programs::vers_c::asked::{Row, answer_each};
use crate::programs::vers_c::batch::{
    each_of_bits, each_of_documents, each_of_elements, each_of_ones, each_of_pairs,
    each_of_symbols, each_of_values,
};
use crate::programs::vers_c::change::Change;
use crate::programs::vers_c::makes::Parentheses;
use crate::programs::vers_c::status::{DONE, UNKNOWN};
use crate::programs::vers_c::text::as_numbers;
use crate::programs::catalogue::answer::Answer;
use crate::programs::catalogue::documents::{Joint, documents_of, joined_documents};
use crate::programs::catalogue::query::Query;
use crate::programs::catalogue::queryable::{Queryable, answer_once};
use crate::programs::catalogue::structure::{Kind, Structure};
use crate::with_list;
use crate::rattle::AllocError;
use crate::rattle::Global;
use crate::shared::Arc;

/// A structure in the memory of the program.
pub enum Kept {
    /// Parentheses. They are not those of `Structure`, which borrow their allocator.
    Tree(Box<Parentheses, Global>),
    /// Another structure.
    Other(Structure<'static, Global>),
}

impl Kept {
    // Returns the kind, or `None` for plain numbers.
    fn kind(&self) -> Option<Kind> {
        match self {
            Kept::Tree(_) => Some(Kind::Tree),
            Kept::Other(structure) => structure.kind(),
        }
    }

    /// Returns the answer to a query with three numbers.
    pub fn answer(&self, query: Query, a: u64, b: u64, c: u64) -> Answer {
        match self {
            Kept::Tree(tree) => answer_once(&**tree, query, a, b, c),
            Kept::Other(structure) => structure.answer(query, a, b, c),
        }
    }
}

/// An owner of a structure, which may have other owners in other threads.
pub type Owner = Arc<Kept, Global>;

/// Returns the structure's answer to a query, fastest if the structure is of a given kind.
#[inline(always)]
pub fn answer_as(kept: &Kept, kind: Kind, query: Query, a: u64, b: u64, c: u64) -> Answer {
    match kind {
        Kind::Bits => match kept {
            Kept::Other(Structure::Bits(bits)) => bits.answer(query, a, b, c),
            _ => kept.answer(query, a, b, c),
        },
        Kind::Sorted => match kept {
            Kept::Other(Structure::Sorted(elements)) => elements.answer(query, a, b, c),
            _ => kept.answer(query, a, b, c),
        },
        Kind::Symbols => match kept {
            Kept::Other(Structure::Symbols(symbols)) => symbols.answer(query, a, b, c),
            _ => kept.answer(query, a, b, c),
        },
        Kind::Tree => match kept {
            Kept::Tree(tree) => (**tree).answer(query, a, b, c),
            _ => kept.answer(query, a, b, c),
        },
        Kind::Fast => match kept {
            Kept::Other(Structure::Fast(values)) => values.answer(query, a, b, c),
            _ => kept.answer(query, a, b, c),
        },
        _ => kept.answer(query, a, b, c),
    }
}

/// Returns the structure's answer to the query of a code.
pub fn answer_coded(kept: &Kept, code: u32, a: u64, b: u64, c: u64) -> Answer {
    match Query::of(code) {
        Some(query) => kept.answer(query, a, b, c),
        None => Answer::Unknown,
    }
}

/// Replaces each row by the answer to its numbers, with a loop for each structure.
pub fn each_answer<R: Row>(
    kept: &Kept,
    alloc: Global,
    query: Query,
    rows: &mut [R],
    b: u64,
    c: u64,
    other: u64,
) {
    match kept {
        Kept::Tree(tree) => answer_each(&**tree, query, rows, b, c, other),
        Kept::Other(structure) => each_other(structure, alloc, query, rows, b, c, other),
    }
}

// Does what `each_answer` does for a structure other than `Kept::Tree`.
fn each_other<R: Row>(
    structure: &Structure<'static, Global>,
    alloc: Global,
    query: Query,
    rows: &mut [R],
    b: u64,
    c: u64,
    other: u64,
) {
    match structure {
        Structure::Bits(bits) => each_of_bits(bits, query, rows, b, c, other),
        Structure::Sorted(elements) => each_of_elements(elements, query, rows, b, c, other),
        Structure::Sparse(bits) => each_of_ones(bits, query, rows, b, c, other),
        Structure::Symbols(symbols) => each_of_symbols(alloc, symbols, query, rows, b, c, other),
        Structure::Fast(values) => each_of_values(values, query, rows, b, c, other),
        Structure::Postings(posted) => each_of_documents(posted, query, rows, b, c, other),
        Structure::Inverted(index) => each_of_pairs(index, query, rows, b, c, other),
        _ => with_list!(structure, list => answer_each(list, query, rows, b, c, other)),
    }
}

/// Returns the query of a code, or `None` if the structure doesn't have it.
pub fn query_of_code(kept: &Kept, code: u32) -> Option<Query> {
    let query = Query::of(code)?;
    if query.is_of(kept.kind()) {
        Some(query)
    } else {
        None
    }
}

/// Does what `answer_each` does for the query of a code. Returns a status.
pub fn each_answer_coded<R: Row>(
    kept: &Kept,
    alloc: Global,
    code: u32,
    rows: &mut [R],
    b: u64,
    c: u64,
    other: u64,
) -> u32 {
    match query_of_code(kept, code) {
        Some(query) => {
            each_answer(kept, alloc, query, rows, b, c, other);
            DONE
        }
        None => UNKNOWN,
    }
}

/// Changes the structure by the change of a code. Returns a status.
pub fn change(kept: &mut Kept, code: u32, a: u64, b: u64) -> u32 {
    let change = match Change::of(code) { Some(change) => change, _ => {
        return UNKNOWN;
    } };
    match kept {
        Kept::Other(Structure::Growing(bits)) => change.make(bits, a, b),
        _ => UNKNOWN,
    }
}

// Returns plain numbers.
fn numbers(items: Vec<u64, Global>) -> Kept {
    Kept::Other(Structure::Numbers(items))
}

/// Returns the documents common to two lists, as plain numbers. `None` if one is no such list. Errors:
/// `AllocError` if the allocator refuses a request.
pub fn common(kept: &Kept, other: &Kept) -> Result<Option<Kept>, AllocError> {
    match kept {
        Kept::Other(Structure::Postings(one)) => match other {
            Kept::Other(Structure::Postings(two)) => Ok(Some(numbers(one.intersect(two)?))),
            _ => Ok(None),
        },
        _ => Ok(None),
    }
}

/// Returns the documents of a term, as plain numbers. `None` if this is no inverted index. Errors: `AllocError` if the
/// allocator refuses a request.
pub fn listed(kept: &Kept, alloc: Global, term: u64) -> Result<Option<Kept>, AllocError> {
    match kept {
        Kept::Other(Structure::Inverted(index)) => {
            Ok(Some(numbers(documents_of(alloc, index, term)?)))
        }
        _ => Ok(None),
    }
}

/// Returns documents of the first of some terms and of the others, as plain numbers, by the code of a `Joint`. `None`
/// if this is no inverted index, there is no such code, or there is no term. Errors: `AllocError` if the allocator
/// refuses a request.
pub fn joined_coded(
    kept: &Kept,
    alloc: Global,
    code: u32,
    terms: &[u64],
) -> Result<Option<Kept>, AllocError> {
    let joint = match Joint::of(code) { Some(joint) => joint, _ => {
        return Ok(None);
    } };
    match terms.split_first() {
        Some((first, others)) => joined(kept, alloc, joint, *first, others),
        None => Ok(None),
    }
}

// Returns documents of a term and of others, as plain numbers. `None` if this is no inverted index.
fn joined(
    kept: &Kept,
    alloc: Global,
    joint: Joint,
    first: u64,
    others: &[u64],
) -> Result<Option<Kept>, AllocError> {
    match kept {
        Kept::Other(Structure::Inverted(index)) => {
            Ok(Some(numbers(joined_documents(alloc, index, joint, first, others)?)))
        }
        _ => Ok(None),
    }
}

/// Returns the number of occurrences of a pattern in a text.
pub fn count(kept: &Kept, pattern: &[u64]) -> Answer {
    match kept {
        Kept::Other(Structure::Text(text)) => Answer::position(text.count(pattern)),
        _ => Answer::Unknown,
    }
}

/// Returns the positions of a pattern in a text, ascending, as plain numbers. `None` if this is no text.
/// Errors: `AllocError` if the allocator refuses a request.
pub fn places(kept: &Kept, alloc: Global, pattern: &[u64]) -> Result<Option<Kept>, AllocError> {
    match kept {
        Kept::Other(Structure::Text(text)) => {
            let positions = text.places_ascending(pattern)?;
            Ok(Some(numbers(as_numbers(alloc, &positions)?)))
        }
        _ => Ok(None),
    }
}

/// Returns the first positions of a pattern in a text, at most `limit`, in suffix-array order, as plain
/// numbers. `None` if this is no text. Errors: `AllocError` if the allocator refuses a request.
pub fn first_places(
    kept: &Kept,
    alloc: Global,
    pattern: &[u64],
    limit: usize,
) -> Result<Option<Kept>, AllocError> {
    match kept {
        Kept::Other(Structure::Text(text)) => {
            let positions = text.first_places(pattern, limit)?;
            Ok(Some(numbers(as_numbers(alloc, &positions)?)))
        }
        _ => Ok(None),
    }
}

/// Returns the symbols of a text from one position up to another, as plain numbers. `None` if this is no
/// text with such positions. Errors: `AllocError` if the allocator refuses a request.
pub fn extract(kept: &Kept, from: usize, to: usize) -> Result<Option<Kept>, AllocError> {
    match kept {
        Kept::Other(Structure::Text(text)) => match text.extract(from..to)? {
            Some(symbols) => Ok(Some(numbers(symbols))),
            None => Ok(None),
        },
        _ => Ok(None),
    }
}
