//! Exports on inverted indexes: build one, and list the documents of a term or of several.

use crate::rattle::prelude::*;

use crate::programs::vers_c::handle::VersHandle;
use crate::programs::vers_c::kept::{joined_coded, listed};
use crate::programs::vers_c::makes::inverted;
use crate::programs::vers_c::owners::{fill_made, put, taken};
use crate::programs::vers_c::status::{OCCUPIED, REFUSED};
use crate::rattle::Global;

/// Builds an inverted index of pairs of a term below `limit` and a document below `universe`. Refuses other numbers of
/// terms and documents, a term or a document that is not below its limit, pairs that don't ascend strictly, by term and
/// then by document, and a product of the limits that exceeds 64 bits.
pub fn vers_inverted_build(
    alloc: Global,
    limit: u64,
    universe: u64,
    terms: &[u64],
    documents: &[u64],
    handle: &mut VersHandle,
) -> u32 {
    if handle.is_built {
        return OCCUPIED;
    }
    fill_made(
        alloc,
        handle,
        inverted(alloc, limit, universe, terms, documents),
    )
}

/// Puts the documents of a term of an inverted index, ascending, into another handle, as plain numbers. The handles are
/// distinct.
pub fn vers_documents(
    alloc: Global,
    handle: &mut VersHandle,
    term: u64,
    into: &mut VersHandle,
) -> u32 {
    if into.is_built {
        return OCCUPIED;
    }
    if !handle.is_built {
        return REFUSED;
    }
    let owner = taken(alloc, handle);
    let made = listed(&owner, alloc, term);
    put(handle, owner);
    fill_made(alloc, into, made)
}

/// Puts documents of the first of some terms of an inverted index and of the others, ascending, into another handle, as
/// plain numbers: those that the code of a `Joint` selects. Refuses no terms. The handles are distinct.
pub fn vers_joined(
    alloc: Global,
    handle: &mut VersHandle,
    code: u32,
    terms: &[u64],
    into: &mut VersHandle,
) -> u32 {
    if into.is_built {
        return OCCUPIED;
    }
    if !handle.is_built {
        return REFUSED;
    }
    let owner = taken(alloc, handle);
    let made = joined_coded(&owner, alloc, code, terms);
    put(handle, owner);
    fill_made(alloc, into, made)
}
