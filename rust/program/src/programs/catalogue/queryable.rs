//! Structures that can be queried.

use crate::rattle::prelude::*;

use crate::programs::catalogue::answer::Answer;
use crate::programs::catalogue::query::Query;

/// A structure that can be queried.
pub trait Queryable {
    /// Returns the answer to a query with three numbers.
    fn answer(&self, query: Query, a: u64, b: u64, c: u64) -> Answer;
}

/// Returns the answer of a structure. It is a function of its own, so that it saves no registers that only
/// other paths need.
#[inline(never)]
pub fn answer_once<S: Queryable>(structure: &S, query: Query, a: u64, b: u64, c: u64) -> Answer {
    structure.answer(query, a, b, c)
}
