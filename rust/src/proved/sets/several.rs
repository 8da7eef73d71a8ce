//! Many sources combined to one.

use crate::rattle::prelude::*;

use crate::proved::sets::joined::earlier;
use crate::proved::sets::seek::Seek;
use crate::proved::sets::step::Step;
use crate::rattle::Allocator;
use crate::proved::vers_tally::tally::Tally;

/// The numbers that are in a set and in each of several others. A search steps through the first, so put the
/// set with the fewest numbers first.
pub struct AllOf<S: Seek, A: Allocator + Copy> {
    pub first: S,
    pub others: Vec<S, A>,
}

/// The numbers that are in a set or in one of several others.
pub struct AnyOf<S: Seek, A: Allocator + Copy> {
    pub first: S,
    pub others: Vec<S, A>,
}

impl<S: Seek, A: Allocator + Copy> Seek for AllOf<S, A> {
    fn seek_counted(&mut self, at: u64, tally: &mut Tally) -> Step {
        match self.first.seek_counted(at, tally) {
            Step::Found(x) => in_each(&mut self.others, x, tally),
            Step::Past(x) => Step::Past(x),
            Step::Ended => Step::Ended,
        }
    }
}

impl<S: Seek, A: Allocator + Copy> Seek for AnyOf<S, A> {
    fn seek_counted(&mut self, at: u64, tally: &mut Tally) -> Step {
        let mut step = self.first.seek_counted(at, tally);
        for i in 0..self.others.len() {
            let other = self.others[i].seek_counted(at, tally);
            step = earlier(step, other);
        }
        step
    }
}

// Returns `Found(x)` if x is in each of several sets, and otherwise a step past numbers that are not in all of
// them.
fn in_each<S: Seek, A: Allocator + Copy>(sets: &mut Vec<S, A>, x: u64, tally: &mut Tally) -> Step {
    for i in 0..sets.len() {
        match sets[i].seek_counted(x, tally) {
            Step::Found(y) => {
                if x < y {
                    return Step::Past(y);
                }
            }
            Step::Past(y) => {
                return Step::Past(y);
            }
            Step::Ended => {
                return Step::Ended;
            }
        }
    }
    Step::Found(x)
}
