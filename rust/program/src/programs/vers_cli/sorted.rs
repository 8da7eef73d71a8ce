//! The load line of an ascending list.

use crate::rattle::prelude::*;

use crate::programs::vers_cli::name::Load;
use crate::programs::catalogue::structure::Structure;
use crate::rattle::AllocError;
use crate::rattle::Allocator;
use crate::proved::vers_sorted::elias_fano::{EliasFanoVec, MAX_LEN, Numbers};
use crate::programs::vers_words::arguments::count_numbers;
use crate::programs::vers_words::loading::Loading;
use crate::programs::vers_words::text::{number, split_first_word};

/// The number of ascending numbers so far, and the last of them, or 0 if there are none.
#[derive(Clone, Copy)]
pub struct Rise {
    pub len: usize,
    pub last: u64,
}

impl Rise {
    /// Returns true if a number may come next.
    pub fn admits(self, next: u64, strictly: bool) -> bool {
        if self.len == 0 {
            return true;
        }
        if strictly {
            self.last < next
        } else {
            self.last <= next
        }
    }

    /// Returns true if all numbers are below a limit, given that they ascend.
    pub fn is_below(self, limit: u64) -> bool {
        self.len == 0 || self.last < limit
    }
}

/// Returns the number of the numbers of a line, and the last of them. `None` if a word is no number below 2^64,
/// or a number is below the previous one, or equal to it if `strictly`.
pub fn rise_of(arguments: &[u8], strictly: bool) -> Option<Rise> {
    let mut rise = Rise { len: 0, last: 0 };
    let mut rest = arguments;
    while let Some((word, others)) = split_first_word(rest) {
        let last = number(word)?;
        if !rise.admits(last, strictly) {
            return None;
        }
        let len = rise.len + 1;
        rise = Rise { len, last };
        rest = others;
    }
    Some(rise)
}

// The numbers of the words of a text, up to the first word that is no number.
#[derive(Clone, Copy)]
struct LineNumbers<'a> {
    rest: &'a [u8],
}

impl Numbers for LineNumbers<'_> {
    fn next(&mut self) -> Option<u64> {
        let (word, others) = split_first_word(self.rest)?;
        let value = number(word)?;
        self.rest = others;
        Some(value)
    }
}

/// Returns the list of the numbers of a line, parsed from its text. Precondition: they ascend. Errors:
/// `AllocError` if the allocator refuses a request.
pub fn elements_of<A: Allocator + Copy>(
    alloc: A,
    arguments: &[u8],
    rise: Rise,
) -> Result<EliasFanoVec<A>, AllocError> {
    // A line of more numbers needs more memory than there can be.
    if rise.len > MAX_LEN {
        return Err(AllocError);
    }
    EliasFanoVec::from_numbers(alloc, LineNumbers { rest: arguments }, rise.len, rise.last)
}

/// Returns true if the load line `sorted n ..` is accepted.
pub fn is_accepted(arguments: &[u8]) -> bool {
    rise_of(arguments, false).is_some()
}

/// Returns the result of the load line `sorted n ..`. Errors: `AllocError` if the allocator refuses a request.
pub fn load<'a, A: Allocator + Copy>(
    alloc: &'a A,
    arguments: &[u8],
) -> Result<Loading<Structure<'a, A>>, AllocError> {
    let Some(rise) = rise_of(arguments, false) else {
        if count_numbers(arguments).is_none() {
            return Ok(Loading::Malformed);
        }
        return Ok(Loading::Inadmissible);
    };
    match elements_of(*alloc, arguments, rise) {
        Ok(elements) => Ok(Loading::Accepted(Structure::Sorted(elements))),
        Err(error) => Err(error),
    }
}
