//! A walk along the numbers of a set.

use crate::rattle::prelude::*;

use crate::proved::sets::gather::after;
use crate::proved::sets::seek::Seek;
use crate::proved::sets::step::Step;
use crate::proved::vers_tally::tally::Tally;

/// An ascending walk along the numbers of a set. It allocates nothing.
pub struct Walk<S: Seek> {
    /// The set.
    pub source: S,
    /// The number from which the walk continues. `None` past the last.
    pub from: Option<u64>,
}

impl<S: Seek> Walk<S> {
    /// Returns a walk from the first number of a set.
    pub fn new(source: S) -> Self {
        Walk {
            source,
            from: Some(0),
        }
    }

    /// Takes the next number of the set. `None` if none is left.
    pub fn next(&mut self) -> Option<u64> {
        let mut tally = Tally::new();
        self.next_counted(&mut tally)
    }

    /// Does what `next` does. All calls of a walk together take at most one step more than the most steps of the set.
    pub fn next_counted(&mut self, tally: &mut Tally) -> Option<u64> {
        let taken = next_from(&mut self.source, self.from, tally);
        self.from = taken.from;
        taken.number
    }
}

// The number that a walk took, and the number from which it continues.
#[derive(Clone, Copy)]
struct Taken {
    number: Option<u64>,
    from: Option<u64>,
}

// Returns the first number of a set from a number, and the number from which a walk continues.
fn next_from<S: Seek>(source: &mut S, start: Option<u64>, tally: &mut Tally) -> Taken {
    let mut from = start;
    while let Some(at) = from {
        match source.seek_counted(at, tally) {
            Step::Found(x) => {
                return Taken {
                    number: Some(x),
                    from: after(x),
                };
            }
            Step::Past(x) => {
                from = Some(x);
            }
            Step::Ended => {
                from = None;
            }
        }
    }
    Taken {
        number: None,
        from: None,
    }
}
