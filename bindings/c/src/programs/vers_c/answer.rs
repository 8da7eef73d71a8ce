//! The answers of exports.

use crate::rattle::prelude::*;

use crate::programs::vers_c::status::{ABSENT, DONE, REFUSED, UNKNOWN, VACANT};
use crate::programs::catalogue::answer::Answer;

/// A status, and a number if the status is `DONE`. Otherwise the number is 0.
#[repr(C)]
#[derive(Clone, Copy)]
pub struct VersAnswer {
    /// The status.
    pub status: u32,
    /// The number.
    pub value: u64,
}

impl VersAnswer {
    /// Returns an answer as a status and a number.
    #[inline(always)]
    pub fn of(answer: Answer) -> VersAnswer {
        let (status, value) = match answer {
            Answer::Found(value) => (DONE, value),
            Answer::Absent => (ABSENT, 0),
            Answer::Unknown => (UNKNOWN, 0),
            Answer::Refused => (REFUSED, 0),
        };
        VersAnswer { status, value }
    }

    /// Returns the answer that the handle is empty.
    #[inline(always)]
    pub fn vacant() -> VersAnswer {
        VersAnswer {
            status: VACANT,
            value: 0,
        }
    }

    /// Returns the number, or `other` if there is none.
    #[inline(always)]
    pub fn number_or(self, other: u64) -> u64 {
        if self.status == DONE {
            self.value
        } else {
            other
        }
    }
}
