//! Saved forms of lists.

use crate::rattle::prelude::*;

use crate::rattle::Allocator;
use std::io::Write;
use crate::proved::vers_saved::fault::SaveError;
use crate::proved::vers_saved::saved::{Saved, save_to_vec};
use crate::proved::vers_saved::stream::save;

/// Returns the saved form of a list.
///
/// # Errors
///
/// `NoForm` if there is none; `Memory` if the allocator refuses a request.
pub fn bytes_of<S: Saved, A: Allocator>(alloc: A, list: &S) -> Result<Vec<u8, A>, SaveError> {
    let mut out = Vec::new(alloc);
    save_to_vec(list, &mut out)?;
    Ok(out)
}

// Writes the saved form of a list.
pub(crate) fn write_form<S: Saved, A: Allocator, W: Write>(
    alloc: A,
    list: &S,
    writer: &mut W,
) -> Result<(), SaveError> {
    save(alloc, list, writer)
}
