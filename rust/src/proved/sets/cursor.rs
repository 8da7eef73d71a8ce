//! An ascending list as a source.

use crate::rattle::prelude::*;

use crate::proved::sets::seek::Seek;
use crate::proved::sets::step::Step;
use crate::rattle::Allocator;
use crate::proved::vers_sorted::elias_fano::{EliasFanoVec, Successors};
use crate::proved::vers_tally::tally::Tally;

/// The elements of an ascending list, as a source. If it is searched for ascending numbers, each search begins at the
/// end of the last one. Contracts see it as the list.
pub struct Cursor<'a, A: Allocator + Copy> {
    list: &'a EliasFanoVec<A>,
    successors: Successors<'a, A>,
}

impl<'a, A: Allocator + Copy> Cursor<'a, A> {
    /// Returns a cursor at the first element of a list.
    pub fn new(list: &'a EliasFanoVec<A>) -> Self {
        Cursor {
            list,
            successors: Successors::new(list),
        }
    }
}

impl<'a, A: Allocator + Copy> Seek for Cursor<'a, A> {
    fn seek_counted(&mut self, at: u64, tally: &mut Tally) -> Step {
        let next = self.successors.successor_counted(at, tally);
        step_to(self.list, next, tally)
    }
}

// Returns the step to an element. The greatest number of 64 bits is the last element, which is read again.
fn step_to<A: Allocator + Copy>(
    list: &EliasFanoVec<A>,
    next: Option<u64>,
    tally: &mut Tally,
) -> Step {
    let element = match next { Some(element) => element, _ => {
        return Step::Ended;
    } };
    if element < u64::MAX {
        return Step::Found(element);
    }
    let last = list.get_counted(list.len().saturating_sub(1), tally);
    Step::Found(last.unwrap_or(element))
}
