//! Exports that query and change the structure of a handle.

use crate::rattle::prelude::*;

use crate::programs::vers_c::answer::VersAnswer;
use crate::programs::vers_c::asked::Ask;
use crate::programs::vers_c::handle::VersHandle;
use crate::programs::vers_c::kept::{answer_coded, each_answer_coded};
use crate::programs::vers_c::owners::{changed, put, taken};
use crate::programs::vers_c::status::{DONE, SHARED, VACANT};
use crate::rattle::Global;

/// Returns the answer of the handle's structure to the query of a code.
pub fn vers_ask(
    alloc: Global,
    handle: &mut VersHandle,
    code: u32,
    a: u64,
    b: u64,
    c: u64,
) -> VersAnswer {
    if !handle.is_built {
        return VersAnswer::vacant();
    }
    let owner = taken(alloc, handle);
    let answer = answer_coded(&owner, code, a, b, c);
    put(handle, owner);
    VersAnswer::of(answer)
}

/// Returns the number that a query of one number finds, or `u64::MAX` if it finds none.
pub fn vers_value(alloc: Global, handle: &mut VersHandle, code: u32, a: u64) -> u64 {
    vers_ask(alloc, handle, code, a, 0, 0).number_or(u64::MAX)
}

/// Replaces each number by the answer to it and two more numbers, or by `other` if there is none.
pub fn vers_ask_each(
    alloc: Global,
    handle: &mut VersHandle,
    code: u32,
    numbers: &mut [usize],
    b: u64,
    c: u64,
    other: usize,
) -> u32 {
    if !handle.is_built {
        return VACANT;
    }
    let owner = taken(alloc, handle);
    let status = each_answer_coded(&owner, alloc, code, numbers, b, c, other as u64);
    put(handle, owner);
    status
}

/// Replaces the first number of each row by its answer, or by `other` if there is none.
pub fn vers_ask_rows(
    alloc: Global,
    handle: &mut VersHandle,
    code: u32,
    asks: &mut [Ask],
    other: u64,
) -> u32 {
    if !handle.is_built {
        return VACANT;
    }
    let owner = taken(alloc, handle);
    let status = each_answer_coded(&owner, alloc, code, asks, 0, 0, other);
    put(handle, owner);
    status
}

/// Changes the handle's structure if it has no other owner. Returns a status: `SHARED` if there is another owner. The
/// contract doesn't count owners, so it allows `SHARED` for each handle with a structure.
pub fn vers_change(
    alloc: Global,
    handle: &mut VersHandle,
    code: u32,
    a: u64,
    b: u64,
) -> u32 {
    if !handle.is_built {
        return VACANT;
    }
    let mut owner = taken(alloc, handle);
    let status = changed(&mut owner, code, a, b);
    put(handle, owner);
    status
}
