//! Many queries at once, by the library's batch functions.

use crate::rattle::prelude::*;

pub mod bits;
pub mod elements;
pub mod symbols;
pub mod values;

use crate::programs::vers_c::asked::{Ask, Row};
pub use bits::each_of_bits;
use crate::programs::catalogue::answer::Answer;
pub use elements::{each_of_documents, each_of_elements, each_of_ones, each_of_pairs};
use crate::rattle::Global;
pub use symbols::each_of_symbols;
pub use values::each_of_values;

/// The number of queries passed to the library together.
const GROUP: usize = 64;

/// The greatest number of queries passed to it together, if their memory can be allocated.
const MOST: usize = 65_536;

/// A query of a structure `S` that the library answers in batches, each in a `Q` of its own.
trait Batch<S, Q: Copy>: Copy {
    /// Returns the `Q` of three numbers.
    fn of(self, ask: Ask) -> Q;

    /// Answers all.
    fn ask_all(self, structure: &S, queries: &mut [Q]);

    /// Returns the answer in a `Q` afterwards.
    fn answer(self, query: Q) -> Answer;
}

/// Replaces each row by the answer to its numbers, or by `other` if there is none, in groups as long as
/// `queries`, the work area.
#[inline(always)]
fn in_groups<S, Q: Copy, B: Batch<S, Q>, R: Row>(
    batch: B,
    structure: &S,
    queries: &mut [Q],
    rows: &mut [R],
    b: u64,
    c: u64,
    other: u64,
) {
    let len = rows.len();
    let mut from = 0;
    while from < len {
        let n = queries.len().min(len - from);
        ask_group(
            batch,
            structure,
            &mut queries[..n],
            &mut rows[from..from + n],
            b,
            c,
            other,
        );
        from += n;
    }
}

// Does the same with an allocated work area for up to `MOST` queries, or with `queries` if that fails. A level
// that many queries read in turn stays in the cache.
fn in_wide_groups<S, Q: Copy, B: Batch<S, Q>, R: Row>(
    alloc: Global,
    batch: B,
    structure: &S,
    few: &mut [Q],
    rows: &mut [R],
    b: u64,
    c: u64,
    other: u64,
) {
    let wanted = rows.len().min(MOST);
    if wanted > few.len() {
        if let Ok(mut many) = Vec::from_elem(alloc, few[0], wanted) {
            in_groups(batch, structure, many.as_mut_slice(), rows, b, c, other);
            return;
        }
    }
    in_groups(batch, structure, few, rows, b, c, other)
}

// Does the same for one group, at most as long as the work area.
#[inline(always)]
fn ask_group<S, Q: Copy, B: Batch<S, Q>, R: Row>(
    batch: B,
    structure: &S,
    queries: &mut [Q],
    rows: &mut [R],
    b: u64,
    c: u64,
    other: u64,
) {
    make_each(batch, queries, rows, b, c);
    batch.ask_all(structure, queries);
    store_each(batch, queries, rows, other);
}

// Makes queries of the numbers of rows.
#[inline(always)]
fn make_each<S, Q: Copy, B: Batch<S, Q>, R: Row>(
    batch: B,
    queries: &mut [Q],
    rows: &[R],
    b: u64,
    c: u64,
) {
    for i in 0..rows.len() {
        queries[i] = batch.of(rows[i].ask(b, c));
    }
}

// Copies the answers of queries into rows.
#[inline(always)]
fn store_each<S, Q: Copy, B: Batch<S, Q>, R: Row>(
    batch: B,
    queries: &[Q],
    rows: &mut [R],
    other: u64,
) {
    for i in 0..rows.len() {
        rows[i] = rows[i].with_answer(batch.answer(queries[i]).value_or(other));
    }
}
