//! The export that combines ascending lists as sets.

use crate::rattle::prelude::*;

use crate::programs::vers_c::handle::VersHandle;
use crate::programs::vers_c::kept::Kept;
use crate::programs::vers_c::owners::{fill_made, put, taken};
use crate::programs::vers_c::status::{OCCUPIED, REFUSED};
use crate::programs::catalogue::documents::Joint;
use crate::programs::catalogue::structure::Structure;
use crate::proved::sets::{difference, intersection, union};
use crate::rattle::AllocError;
use crate::rattle::Global;
use crate::proved::vers_sorted::elias_fano::EliasFanoVec;

/// Puts numbers of two ascending lists, without repeats, into a third handle, as an ascending list: those that the code
/// of a `Joint` selects. The handles are distinct.
pub fn vers_combine(
    alloc: Global,
    one: &mut VersHandle,
    other: &mut VersHandle,
    code: u32,
    into: &mut VersHandle,
) -> u32 {
    if into.is_built {
        return OCCUPIED;
    }
    if !one.is_built || !other.is_built {
        return REFUSED;
    }
    let first = taken(alloc, one);
    let second = taken(alloc, other);
    let made = kept_combined(alloc, &first, &second, code);
    put(one, first);
    put(other, second);
    fill_made(alloc, into, made)
}

// Returns numbers of two ascending lists, by the code of a `Joint`. `None` if one is no such list, or there is no such
// code. Errors: `AllocError` if the allocator refuses a request.
fn kept_combined(
    alloc: Global,
    kept: &Kept,
    other: &Kept,
    code: u32,
) -> Result<Option<Kept>, AllocError> {
    let joint = match Joint::of(code) { Some(joint) => joint, _ => {
        return Ok(None);
    } };
    match kept {
        Kept::Other(Structure::Sorted(one)) => match other {
            Kept::Other(Structure::Sorted(two)) => {
                let made = combined_lists(alloc, joint, one, two)?;
                Ok(Some(Kept::Other(Structure::Sorted(made))))
            }
            _ => Ok(None),
        },
        _ => Ok(None),
    }
}

// Returns numbers of two ascending lists. Errors: `AllocError` if the allocator refuses a request.
fn combined_lists(
    alloc: Global,
    joint: Joint,
    one: &EliasFanoVec<Global>,
    other: &EliasFanoVec<Global>,
) -> Result<EliasFanoVec<Global>, AllocError> {
    match joint {
        Joint::Intersection => Ok(as_set(intersection(alloc, one, other)?)),
        Joint::Union => Ok(as_set(union(alloc, one, other)?)),
        Joint::Difference => Ok(as_set(difference(alloc, one, other)?)),
    }
}

// Returns the list. If it is a set, it has exactly the numbers of 64 bits that the set has.
fn as_set(list: EliasFanoVec<Global>) -> EliasFanoVec<Global> {
    let _ = list.ends();
    list
}
