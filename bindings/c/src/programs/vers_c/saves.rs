//! Saved forms of the structures of handles.

use crate::rattle::prelude::*;

use crate::programs::vers_c::answer::VersAnswer;
use crate::programs::vers_c::handle::VersHandle;
use crate::programs::vers_c::kept::Kept;
use crate::programs::vers_c::makes::{Parentheses, boxed};
use crate::programs::vers_c::owners::{fill, put, taken};
use crate::programs::vers_c::status::{
    ABSENT, BAD_LENGTH, BAD_PADDING, BAD_SUM, DONE, NO_MEMORY, NOT_A_TEXT, NOT_ASCENDING, NOT_OURS,
    OCCUPIED, OTHER_KIND, OTHER_VERSION, REFUSED, TOO_SHORT, UNKNOWN, VACANT,
};
use crate::programs::catalogue::answer::Answer;
use crate::programs::catalogue::forms::bytes_of;
use crate::programs::catalogue::structure::{Kind, Structure};
use crate::rattle::Global;
use crate::proved::vers_saved::fault::{LoadError, SaveError};
use crate::proved::vers_saved::saved::{load_from_slice, saved_size};
use crate::proved::vers_saved::texts::load_text_from_slice;
use crate::proved::vers_saved::trees::load_parentheses_from_slice;

impl Kept {
    /// Returns the number of bytes of the saved form, or `None` if there is none.
    pub fn saved_size(&self) -> Option<usize> {
        match self {
            Kept::Tree(tree) => saved_size(&**tree),
            Kept::Other(structure) => structure.saved_size(),
        }
    }

    /// Returns the saved form.
    ///
    /// # Errors
    ///
    /// `NoForm` if there is none; `Memory` if the allocator refuses a request.
    pub fn to_bytes(&self, alloc: Global) -> Result<Vec<u8, Global>, SaveError> {
        match self {
            Kept::Tree(tree) => bytes_of(alloc, &**tree),
            Kept::Other(structure) => structure.to_bytes(alloc),
        }
    }
}

/// Returns the number of bytes of the saved form of the handle's structure.
pub fn vers_saved_size(alloc: Global, handle: &mut VersHandle) -> VersAnswer {
    if !handle.is_built {
        return VersAnswer::vacant();
    }
    let owner = taken(alloc, handle);
    let size = owner.saved_size();
    put(handle, owner);
    match size {
        Some(size) => VersAnswer::of(Answer::position(size)),
        None => VersAnswer::of(Answer::Absent),
    }
}

/// Writes the saved form of the handle's structure to `bytes`. Refuses another number of bytes than the form has.
pub fn vers_save(alloc: Global, handle: &mut VersHandle, bytes: &mut [u8]) -> u32 {
    if !handle.is_built {
        return VACANT;
    }
    let owner = taken(alloc, handle);
    let made = owner.to_bytes(alloc);
    put(handle, owner);
    match made {
        Ok(out) => written(&out, bytes),
        Err(SaveError::NoForm) => ABSENT,
        Err(_) => NO_MEMORY,
    }
}

// Writes bytes over others, of which there are as many.
fn written(from: &[u8], to: &mut [u8]) -> u32 {
    if from.len() != to.len() {
        return REFUSED;
    }
    to.copy_from_slice(from);
    DONE
}

// Loads parentheses from their saved form.
//
// # Errors
//
// That of the first test that fails; `Memory` if the allocator refuses a request.
fn load_parentheses(alloc: Global, bytes: &[u8]) -> Result<Box<Parentheses, Global>, LoadError> {
    let bits = load_parentheses_from_slice(alloc, 512, bytes)?;
    match boxed(alloc, bits) {
        Ok(tree) => Ok(tree),
        Err(_) => Err(LoadError::Memory),
    }
}

// Returns a loaded list as a structure.
macro_rules! loaded_as {
    ($loaded:expr, $structure:path) => {
        match $loaded {
            Ok(list) => Ok(Kept::Other($structure(list))),
            Err(error) => Err(error),
        }
    };
}

// Loads a structure of a kind from its saved form.
//
// # Errors
//
// The error of the first test that fails; the last test is that of a text. `Memory` if the allocator refuses a
// request.
fn load(alloc: Global, kind: Kind, bytes: &[u8]) -> Result<Kept, LoadError> {
    match kind {
        Kind::Growing => loaded_as!(load_from_slice(alloc, bytes), Structure::Growing),
        Kind::Bits => loaded_as!(load_from_slice(alloc, bytes), Structure::Bits),
        Kind::Sparse => loaded_as!(load_from_slice(alloc, bytes), Structure::Sparse),
        Kind::Sorted => loaded_as!(load_from_slice(alloc, bytes), Structure::Sorted),
        Kind::Symbols => loaded_as!(load_from_slice(alloc, bytes), Structure::Symbols),
        Kind::Tree => match load_parentheses(alloc, bytes) {
            Ok(tree) => Ok(Kept::Tree(tree)),
            Err(error) => Err(error),
        },
        Kind::Fast => loaded_as!(load_from_slice(alloc, bytes), Structure::Fast),
        Kind::Binary => loaded_as!(load_from_slice(alloc, bytes), Structure::Binary),
        Kind::Postings => loaded_as!(load_from_slice(alloc, bytes), Structure::Postings),
        Kind::Text => loaded_as!(load_text_from_slice(alloc, bytes), Structure::Text),
        Kind::Inverted => loaded_as!(load_from_slice(alloc, bytes), Structure::Inverted),
    }
}

/// Builds a structure of a kind from its saved form. Refuses other bytes, with the status of the first test
/// that fails.
pub fn vers_load(alloc: Global, code: u32, bytes: &[u8], handle: &mut VersHandle) -> u32 {
    if handle.is_built {
        return OCCUPIED;
    }
    let kind = match Kind::of(code as usize) { Some(kind) => kind, _ => {
        return UNKNOWN;
    } };
    match load(alloc, kind, bytes) {
        Ok(kept) => fill(alloc, handle, kept),
        Err(error) => fault(error),
    }
}

// Returns the status of an error of loading.
fn fault(error: LoadError) -> u32 {
    match error {
        LoadError::Memory => NO_MEMORY,
        LoadError::TooShort => TOO_SHORT,
        LoadError::NotOurs => NOT_OURS,
        LoadError::OtherVersion => OTHER_VERSION,
        LoadError::OtherKind => OTHER_KIND,
        LoadError::BadLength => BAD_LENGTH,
        LoadError::BadSum => BAD_SUM,
        LoadError::BadPadding => BAD_PADDING,
        LoadError::NotAscending => NOT_ASCENDING,
        LoadError::NotAText => NOT_A_TEXT,
        // Not possible: the bytes are in memory.
        LoadError::Read => REFUSED,
    }
}
