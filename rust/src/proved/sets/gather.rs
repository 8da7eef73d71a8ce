//! The numbers of a set, in a list.

use crate::rattle::prelude::*;

use crate::proved::sets::seek::Seek;
use crate::proved::sets::step::Step;
use crate::rattle::AllocError;
use crate::rattle::Allocator;
use crate::proved::vers_sorted::elias_fano::EliasFanoVec;
use crate::proved::vers_tally::tally::Tally;

/// Returns the numbers of a set as an ascending list. Errors: `AllocError` only if the allocator refuses a
/// request.
pub fn collect<A: Allocator + Copy, S: Seek>(
    alloc: A,
    source: S,
) -> Result<EliasFanoVec<A>, AllocError> {
    let found = numbers_of(alloc, source)?;
    EliasFanoVec::from_slice(alloc, found.as_slice())
}

/// Returns the numbers of a set, ascending. Errors: `AllocError` only if the allocator refuses a request.
pub fn numbers_of<A: Allocator + Copy, S: Seek>(
    alloc: A,
    source: S,
) -> Result<Vec<u64, A>, AllocError> {
    let mut tally = Tally::new();
    numbers_of_counted(alloc, source, &mut tally)
}

/// Returns `numbers_of(alloc, source)`. Takes at most one step more than the most steps of the set.
pub fn numbers_of_counted<A: Allocator + Copy, S: Seek>(
    alloc: A,
    mut source: S,
    tally: &mut Tally,
) -> Result<Vec<u64, A>, AllocError> {
    let mut found = Vec::new(alloc);
    let mut from = Some(0u64);
    while let Some(at) = from {
        match source.seek_counted(at, tally) {
            Step::Found(x) => {
                found.push(x)?;
                from = after(x);
            }
            Step::Past(x) => {
                from = Some(x);
            }
            Step::Ended => {
                from = None;
            }
        }
    }
    Ok(found)
}

// Returns the number after x, if it has 64 bits.
#[inline(always)]
pub(crate) fn after(x: u64) -> Option<u64> {
    if x == u64::MAX { None } else { Some(x + 1) }
}
