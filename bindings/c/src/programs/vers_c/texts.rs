//! Exports on texts: count and locate the occurrences of a pattern, and extract pieces of the text.

use crate::rattle::prelude::*;

use crate::programs::vers_c::answer::VersAnswer;
use crate::programs::vers_c::counts::count_each;
use crate::programs::vers_c::handle::VersHandle;
use crate::programs::vers_c::kept::{Kept, count, extract, first_places, places};
use crate::programs::vers_c::owners::{fill, fill_made, put, taken};
use crate::programs::vers_c::status::{NO_MEMORY, OCCUPIED, REFUSED, VACANT};
use crate::programs::vers_c::text::narrowed;
use crate::programs::catalogue::structure::Structure;
use crate::rattle::Global;
use crate::proved::text_index::{TextError, TextIndex};

// Puts the index of a text into a handle, and returns a status. Precondition: the handle is empty.
fn fill_text(alloc: Global, handle: &mut VersHandle, text: TextIndex<Global>) -> u32 {
    // Only a text that can be indexed has a column.
    let column = text.column();
    let _ = column.len();
    fill(alloc, handle, Kept::Other(Structure::Text(text)))
}

// Returns the status of a build that made no index.
fn refusal(error: TextError) -> u32 {
    match error {
        TextError::Memory => NO_MEMORY,
        _ => REFUSED,
    }
}

/// Builds a text index of symbols of `width` bits, with a sample every `step` positions. Refuses a width of 0
/// or above 16, a symbol that exceeds the width, more than 2^32 - 2 symbols, and a step of 0.
pub fn vers_text_build(
    alloc: Global,
    symbols: &[u64],
    width: u32,
    step: usize,
    handle: &mut VersHandle,
) -> u32 {
    if handle.is_built {
        return OCCUPIED;
    }
    match TextIndex::with_step(alloc, symbols, narrowed(width), step) {
        Ok(text) => fill_text(alloc, handle, text),
        Err(error) => refusal(error),
    }
}

/// Builds the text index that `vers_text_build` does, from bytes. Makes no copy of them.
pub fn vers_text_build_bytes(
    alloc: Global,
    bytes: &[u8],
    width: u32,
    step: usize,
    handle: &mut VersHandle,
) -> u32 {
    if handle.is_built {
        return OCCUPIED;
    }
    match TextIndex::bytes_with_step(alloc, bytes, narrowed(width), step) {
        Ok(text) => fill_text(alloc, handle, text),
        Err(error) => refusal(error),
    }
}

/// Builds the text index that `vers_text_build` does, from numbers in 16 bits each. Makes no copy of them.
pub fn vers_text_build_u16s(
    alloc: Global,
    u16s: &[u16],
    width: u32,
    step: usize,
    handle: &mut VersHandle,
) -> u32 {
    if handle.is_built {
        return OCCUPIED;
    }
    match TextIndex::u16s_with_step(alloc, u16s, narrowed(width), step) {
        Ok(text) => fill_text(alloc, handle, text),
        Err(error) => refusal(error),
    }
}

/// Returns the number of occurrences of a pattern in a text. The empty pattern occurs at each position, and at
/// the end.
pub fn vers_count(alloc: Global, handle: &mut VersHandle, pattern: &[u64]) -> VersAnswer {
    if !handle.is_built {
        return VersAnswer::vacant();
    }
    let owner = taken(alloc, handle);
    let answer = count(&owner, pattern);
    put(handle, owner);
    VersAnswer::of(answer)
}

/// Replaces each of some ends by the number of occurrences of its pattern in a text. The patterns are joined: the first
/// begins at 0, each other one at the end of the one before. Refuses ends that descend, or that are above the number of
/// symbols. Returns a status.
pub fn vers_count_each(
    alloc: Global,
    handle: &mut VersHandle,
    symbols: &[u64],
    ends: &mut [u64],
) -> u32 {
    if !handle.is_built {
        return VACANT;
    }
    let owner = taken(alloc, handle);
    let status = count_each(&owner, symbols, ends);
    put(handle, owner);
    status
}

/// Puts the positions of a pattern in a text, ascending, into another handle, as plain numbers. The handles are
/// distinct.
pub fn vers_places(
    alloc: Global,
    handle: &mut VersHandle,
    pattern: &[u64],
    into: &mut VersHandle,
) -> u32 {
    if into.is_built {
        return OCCUPIED;
    }
    if !handle.is_built {
        return REFUSED;
    }
    let owner = taken(alloc, handle);
    let made = places(&owner, alloc, pattern);
    put(handle, owner);
    fill_made(alloc, into, made)
}

/// Puts the first positions of a pattern in a text, at most `limit`, in suffix-array order, into another handle,
/// as plain numbers. The handles are distinct.
pub fn vers_first_places(
    alloc: Global,
    handle: &mut VersHandle,
    pattern: &[u64],
    limit: usize,
    into: &mut VersHandle,
) -> u32 {
    if into.is_built {
        return OCCUPIED;
    }
    if !handle.is_built {
        return REFUSED;
    }
    let owner = taken(alloc, handle);
    let made = first_places(&owner, alloc, pattern, limit);
    put(handle, owner);
    fill_made(alloc, into, made)
}

/// Puts the symbols of a text from one position up to another into another handle, as plain numbers. The
/// handles are distinct.
pub fn vers_extract(
    alloc: Global,
    handle: &mut VersHandle,
    from: usize,
    to: usize,
    into: &mut VersHandle,
) -> u32 {
    if into.is_built {
        return OCCUPIED;
    }
    if !handle.is_built {
        return REFUSED;
    }
    let owner = taken(alloc, handle);
    let made = extract(&owner, from, to);
    put(handle, owner);
    fill_made(alloc, into, made)
}
