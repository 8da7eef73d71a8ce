//! The answers to queries.

use crate::rattle::prelude::*;

/// The answer to a query.
#[derive(Clone, Copy)]
pub enum Answer {
    /// A number.
    Found(u64),
    /// There is no such thing.
    Absent,
    /// The structure has no such query.
    Unknown,
    /// The arguments don't meet the precondition of the query.
    Refused,
}

impl Answer {
    /// Returns an answer with a position.
    #[inline(always)]
    pub fn position(position: usize) -> Answer {
        Answer::Found(position as u64)
    }

    /// Returns an answer with a boolean, as 1 or 0.
    #[inline(always)]
    pub fn truth(b: bool) -> Answer {
        Answer::Found(u64::from(b))
    }

    /// Returns an answer with the number, or that there is none.
    #[inline(always)]
    pub fn number_or_absent(number: Option<u64>) -> Answer {
        match number {
            Some(n) => Answer::Found(n),
            None => Answer::Absent,
        }
    }

    /// Returns an answer with the position, or that there is none.
    #[inline(always)]
    pub fn position_or_absent(position: Option<usize>) -> Answer {
        match position {
            Some(n) => Answer::position(n),
            None => Answer::Absent,
        }
    }

    /// Returns an answer with the bit, or that there is none.
    #[inline(always)]
    pub fn bit_or_absent(bit: Option<bool>) -> Answer {
        match bit {
            Some(b) => Answer::truth(b),
            None => Answer::Absent,
        }
    }

    /// Returns the number, or `other` if there is none.
    #[inline(always)]
    pub fn value_or(self, other: u64) -> u64 {
        match self {
            Answer::Found(value) => value,
            Answer::Absent | Answer::Unknown | Answer::Refused => other,
        }
    }
}
