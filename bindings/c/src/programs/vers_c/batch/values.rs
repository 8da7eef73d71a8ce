//! Batches of queries of values with range minima.

use crate::rattle::prelude::*;

use crate::programs::vers_c::asked::{Row, answer_each};
use crate::programs::catalogue::query::Query;
use crate::rattle::Global;
use crate::proved::vers_rmq::rmq::fast_rmq::FastRmq;

/// Replaces each row by the answer of values with blocks to its numbers, with a loop of its own for each
/// frequent query.
pub fn each_of_values<R: Row>(
    values: &FastRmq<Global>,
    query: Query,
    rows: &mut [R],
    b: u64,
    c: u64,
    other: u64,
) {
    match query {
        Query::Get => answer_each(values, Query::Get, rows, b, c, other),
        Query::RangeMin => answer_each(values, Query::RangeMin, rows, b, c, other),
        _ => answer_each(values, query, rows, b, c, other),
    }
}
