//! Exports on owners: another owner, one owner fewer, and what two structures have in common.

use crate::rattle::prelude::*;

use crate::programs::vers_c::handle::VersHandle;
use crate::programs::vers_c::kept::common;
use crate::programs::vers_c::owners::{fill_made, other_owner, put, taken};
use crate::programs::vers_c::status::{DONE, NO_MEMORY, OCCUPIED, REFUSED, VACANT};
use crate::rattle::Global;

/// Drops the handle's owner, if it has one: the handle is empty afterwards. The last owner frees the structure.
pub fn vers_free(alloc: Global, handle: &mut VersHandle) {
    if handle.is_built {
        drop(taken(alloc, handle));
    }
}

/// Makes another handle an owner of this one's structure, for another thread. The handles are distinct.
pub fn vers_clone(alloc: Global, handle: &mut VersHandle, other: &mut VersHandle) -> u32 {
    if !handle.is_built {
        return VACANT;
    }
    if other.is_built {
        return OCCUPIED;
    }
    let owner = taken(alloc, handle);
    let status = match other_owner(alloc, &owner) {
        Ok(another) => {
            put(other, another);
            DONE
        }
        Err(_) => NO_MEMORY,
    };
    put(handle, owner);
    status
}

/// Puts the documents common to two lists into a third handle, as plain numbers. The handles are distinct.
pub fn vers_intersect(
    alloc: Global,
    one: &mut VersHandle,
    other: &mut VersHandle,
    into: &mut VersHandle,
) -> u32 {
    if into.is_built {
        return OCCUPIED;
    }
    if !one.is_built || !other.is_built {
        return REFUSED;
    }
    let first = taken(alloc, one);
    let second = taken(alloc, other);
    let made = common(&first, &second);
    put(one, first);
    put(other, second);
    fill_made(alloc, into, made)
}
