//! In builds of tests: what is read of lists of items, as it is read.
//!
//! Each read notes the list by the address of its first entry, the type of its entries, the line that reads, and how many entries.
//! `list[k]` is one entry and `list[a..b]` as many as the slice has. A whole slice that is handed out (`as_slice`, a method of slices, a loop)
//! is noted as `Handed`, with all its entries, since what is then done with it isn't seen; but a load of lanes from it is, as `Lanes`.

use core::panic::Location;
use std::cell::RefCell;

/// How entries were reached.
#[derive(Clone, Copy, PartialEq, Eq, Debug)]
pub enum Way {
    /// By an index, which gives an entry or some.
    Index,
    /// By a load of lanes from a slice.
    Lanes,
    /// By a slice of all entries.
    Handed,
    /// Not yet: a slice was split into arrays of that many entries.
    Split,
    /// By an array of entries.
    Array,
    /// Not at all: the list was given its room.
    Made,
}

/// A read.
#[derive(Clone, Copy, Debug)]
pub struct Read {
    /// The type of the entries.
    pub of: &'static str,
    /// The address of the list's first entry, and of the first entry that is read.
    pub list: usize,
    pub first: usize,
    /// How many entries, and how they were reached.
    pub count: usize,
    pub way: Way,
    /// The line that reads.
    pub at: &'static Location<'static>,
}

thread_local! {
    static READS: RefCell<Option<std::vec::Vec<Read>>> = const { RefCell::new(None) };
}

/// What is read while a call is made, and what the call answers.
pub fn during<R>(call: impl FnOnce() -> R) -> (R, std::vec::Vec<Read>) {
    READS.with(|it| *it.borrow_mut() = Some(std::vec::Vec::new()));
    let answer = call();
    let reads = READS.with(|it| it.borrow_mut().take());
    (answer, reads.unwrap_or_default())
}

/// Notes a read.
#[inline(never)]
pub fn note<T>(list: *const T, first: *const T, count: usize, way: Way, at: &'static Location<'static>) {
    READS.with(|it| {
        if let Some(reads) = it.borrow_mut().as_mut() {
            reads.push(Read {
                of: core::any::type_name::<T>(),
                list: list as usize,
                first: first as usize,
                count,
                way,
                at,
            });
        }
    });
}
