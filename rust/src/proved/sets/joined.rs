//! Two sources combined to one.

use crate::rattle::prelude::*;

use crate::proved::sets::seek::Seek;
use crate::proved::sets::step::Step;
use crate::proved::vers_tally::tally::Tally;

/// The numbers that are in two sets. A search steps through the first, so put the set with fewer numbers first.
pub struct Both<R: Seek, S: Seek> {
    pub one: R,
    pub other: S,
}

/// The numbers that are in one of two sets, or in both.
pub struct Either<R: Seek, S: Seek> {
    pub one: R,
    pub other: S,
}

/// The numbers of the first set that are not in the other.
pub struct Without<R: Seek, S: Seek> {
    pub one: R,
    pub other: S,
}

impl<R: Seek, S: Seek> Seek for Both<R, S> {
    fn seek_counted(&mut self, at: u64, tally: &mut Tally) -> Step {
        match self.one.seek_counted(at, tally) {
            Step::Found(x) => match self.other.seek_counted(x, tally) {
                Step::Found(y) => { if x < y { Step::Past(y) } else { Step::Found(x) } }
                Step::Past(y) => Step::Past(y),
                Step::Ended => Step::Ended,
            },
            Step::Past(x) => Step::Past(x),
            Step::Ended => Step::Ended,
        }
    }
}

impl<R: Seek, S: Seek> Seek for Either<R, S> {
    fn seek_counted(&mut self, at: u64, tally: &mut Tally) -> Step {
        let one = self.one.seek_counted(at, tally);
        let other = self.other.seek_counted(at, tally);
        earlier(one, other)
    }
}

impl<R: Seek, S: Seek> Seek for Without<R, S> {
    fn seek_counted(&mut self, at: u64, tally: &mut Tally) -> Step {
        match self.one.seek_counted(at, tally) {
            Step::Found(x) => match self.other.seek_counted(x, tally) {
                Step::Found(y) => { if x < y { Step::Found(x) } else { past(x) } }
                Step::Past(_) => Step::Found(x),
                Step::Ended => Step::Found(x),
            },
            Step::Past(x) => Step::Past(x),
            Step::Ended => Step::Ended,
        }
    }
}

// Returns the earlier of two steps from one number.
pub(crate) fn earlier(one: Step, other: Step) -> Step {
    match one {
        Step::Found(x) => match other {
            Step::Found(y) => Step::Found(x.min(y)),
            Step::Past(y) => { if x < y { Step::Found(x) } else { Step::Past(y) } }
            Step::Ended => Step::Found(x),
        },
        Step::Past(x) => match other {
            Step::Found(y) => { if y < x { Step::Found(y) } else { Step::Past(x) } }
            Step::Past(y) => Step::Past(x.min(y)),
            Step::Ended => Step::Past(x),
        },
        Step::Ended => other,
    }
}

// Returns the step past a number.
fn past(x: u64) -> Step {
    if x == u64::MAX {
        Step::Ended
    } else {
        Step::Past(x + 1)
    }
}
