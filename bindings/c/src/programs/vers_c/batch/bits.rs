//! Batches of queries of bits with rank and select.

use crate::rattle::prelude::*;

use super::{Batch, GROUP, in_groups};
use crate::programs::vers_c::asked::{Ask, Row, answer_each};
use crate::programs::catalogue::answer::Answer;
use crate::programs::catalogue::query::Query;
use crate::rattle::Global;
use crate::proved::vers_rank::fast_rs_vec::RsVec;

// Positions of zeros or of ones by their numbers.
#[derive(Clone, Copy)]
struct Selects {
    bit: bool,
}

impl Batch<RsVec<Global>, usize> for Selects {
    #[inline(always)]
    fn of(self, ask: Ask) -> usize {
        ask.a as usize
    }

    #[inline(always)]
    fn ask_all(self, bits: &RsVec<Global>, numbers: &mut [usize]) {
        match (is_run(numbers), self.bit) {
            (true, true) => select_run::<false>(bits, numbers),
            (true, false) => select_run::<true>(bits, numbers),
            (false, true) => bits.select1_each(numbers),
            (false, false) => bits.select0_each(numbers),
        }
    }

    #[inline(always)]
    fn answer(self, position: usize) -> Answer {
        Answer::position(position)
    }
}

// Returns true if each number is one more than the one before.
fn is_run(numbers: &[usize]) -> bool {
    for k in 1..numbers.len() {
        if numbers[k - 1].checked_add(1) != Some(numbers[k]) {
            return false;
        }
    }
    true
}

// Replaces each number of a run by the position of the zero or the one, as an iterator reads them.
fn select_run<const ZERO: bool>(bits: &RsVec<Global>, numbers: &mut [usize]) {
    let first = match numbers.first() { Some(first) => first, _ => {
        return;
    } };
    let mut skip = *first;
    let mut positions = bits.select_iter::<ZERO>();
    for k in 0..numbers.len() {
        numbers[k] = positions.nth(skip).unwrap_or(bits.len());
        skip = 0;
    }
}

/// Replaces each row by the answer of bits with rank and select to its numbers, with a loop of its own for each
/// frequent query.
pub fn each_of_bits<R: Row>(
    bits: &RsVec<Global>,
    query: Query,
    rows: &mut [R],
    b: u64,
    c: u64,
    other: u64,
) {
    match query {
        Query::Get => answer_each(bits, Query::Get, rows, b, c, other),
        Query::Rank0 => answer_each(bits, Query::Rank0, rows, b, c, other),
        Query::Rank1 => answer_each(bits, Query::Rank1, rows, b, c, other),
        Query::Select0 => select_each(bits, false, rows, b, c, other),
        Query::Select1 => select_each(bits, true, rows, b, c, other),
        _ => answer_each(bits, query, rows, b, c, other),
    }
}

// Does the same for the positions of a bit.
#[inline(always)]
fn select_each<R: Row>(bits: &RsVec<Global>, bit: bool, rows: &mut [R], b: u64, c: u64, other: u64) {
    let mut numbers = [0; GROUP];
    in_groups(Selects { bit }, bits, &mut numbers, rows, b, c, other)
}
