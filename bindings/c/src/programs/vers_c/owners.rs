//! Owners of structures, in handles and out of them.

use crate::rattle::prelude::*;

use crate::programs::vers_c::handle::VersHandle;
use crate::programs::vers_c::held::Held;
use crate::programs::vers_c::kept::{Kept, Owner, change};
use crate::programs::vers_c::loose::Loose;
use crate::programs::vers_c::status::{DONE, NO_MEMORY, REFUSED, SHARED};
use crate::rattle::AllocError;
use crate::rattle::Global;
use std::mem;
use crate::shared::Arc;

/// Takes the owner out of a handle. Precondition: there is one.
#[inline(always)]
pub fn taken(alloc: Global, handle: &mut VersHandle) -> Box<Owner, Global> {
    handle.is_built = false;
    mem::replace(&mut handle.held, Held::vacant(alloc))
        .into_owner()
        .into_box()
}

/// Puts an owner into a handle. Precondition: the handle is empty.
#[inline(always)]
pub fn put(handle: &mut VersHandle, owner: Box<Owner, Global>) {
    handle.is_built = true;
    mem::replace(&mut handle.held, Held::of(Loose::of(owner))).discard();
}

// Returns the first owner of a structure.
fn owner_of(alloc: Global, kept: Kept) -> Result<Box<Owner, Global>, AllocError> {
    let owner = Arc::new(alloc, kept)?;
    Ok(Box::new(alloc, owner)?)
}

/// Returns another owner of the same structure. Errors: `AllocError` if the allocator refuses a request.
pub fn other_owner(alloc: Global, owner: &Owner) -> Result<Box<Owner, Global>, AllocError> {
    let other = Arc::try_clone(owner)?;
    Ok(Box::new(alloc, other)?)
}

/// Changes a structure if it has no other owner. Returns a status.
pub fn changed(owner: &mut Owner, code: u32, a: u64, b: u64) -> u32 {
    match Arc::get_mut(owner) {
        Some(kept) => change(kept, code, a, b),
        None => SHARED,
    }
}

/// Puts a structure into a handle, and returns a status. Precondition: the handle is empty.
pub fn fill(alloc: Global, handle: &mut VersHandle, kept: Kept) -> u32 {
    match owner_of(alloc, kept) {
        Ok(owner) => {
            put(handle, owner);
            DONE
        }
        Err(_) => NO_MEMORY,
    }
}

/// Puts a structure into a handle, if there is one and its allocation succeeded, and returns a status.
/// Precondition: the handle is empty.
pub fn fill_made(
    alloc: Global,
    handle: &mut VersHandle,
    made: Result<Option<Kept>, AllocError>,
) -> u32 {
    match made {
        Ok(Some(kept)) => fill(alloc, handle, kept),
        Ok(None) => REFUSED,
        Err(_) => NO_MEMORY,
    }
}

// An owner may cross to another thread.
fn crosses<T: Send>() {}

/// Shows that an owner may cross to another thread, which the compiler checks.
pub fn owners_cross() {
    crosses::<Owner>();
}
