//! Sets of numbers that are searched step by step.

use crate::rattle::prelude::*;

use crate::proved::sets::step::Step;
use crate::proved::vers_tally::tally::Tally;

/// A set of numbers that is searched step by step. A source may keep what it has read, to read the next number
/// faster.
pub trait Seek: Sized {
    /// Takes one step of a search for the first number of the set that is at least `at`.
    fn seek_counted(&mut self, at: u64, tally: &mut Tally) -> Step;
}
