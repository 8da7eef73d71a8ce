//! Many queries of one structure.

use crate::rattle::prelude::*;

use crate::programs::catalogue::query::Query;
use crate::programs::catalogue::queryable::Queryable;

/// The three numbers of a query. The first is replaced by the answer.
#[repr(C)]
#[derive(Clone, Copy)]
pub struct Ask {
    /// The first number, then the answer.
    pub a: u64,
    /// The second number.
    pub b: u64,
    /// The third number.
    pub c: u64,
}

/// The numbers of one query among many, then its answer.
pub trait Row: Copy {
    /// Returns its three numbers; `b` and `c` are those that a row of one number lacks.
    fn ask(self, b: u64, c: u64) -> Ask;

    /// Returns the row with its answer.
    fn with_answer(self, answer: u64) -> Self;
}

impl Row for usize {
    #[inline(always)]
    fn ask(self, b: u64, c: u64) -> Ask {
        Ask {
            a: self as u64,
            b,
            c,
        }
    }

    #[inline(always)]
    fn with_answer(self, answer: u64) -> usize {
        answer as usize
    }
}

impl Row for Ask {
    #[inline(always)]
    fn ask(self, _b: u64, _c: u64) -> Ask {
        self
    }

    #[inline(always)]
    fn with_answer(self, answer: u64) -> Ask {
        Ask {
            a: answer,
            b: self.b,
            c: self.c,
        }
    }
}

/// Replaces each row by the answer to its numbers, or by `other` if there is none.
#[inline(always)]
pub fn answer_each<S: Queryable, R: Row>(
    structure: &S,
    query: Query,
    rows: &mut [R],
    b: u64,
    c: u64,
    other: u64,
) {
    for i in 0..rows.len() {
        let row = rows[i];
        let ask = row.ask(b, c);
        let answer = structure.answer(query, ask.a, ask.b, ask.c);
        rows[i] = row.with_answer(answer.value_or(other));
    }
}
