//! Query lines about the list of a file.

use crate::rattle::prelude::*;

use crate::programs::vers_files::loading::load_file;
use crate::rattle::Allocator;
use std::io::Read;
use crate::programs::vers_cli::{Device, RunError, Sink, Source, Store, run_from};
use crate::proved::vers_saved::fault::LoadError;

/// Reads lines to the end of the input and writes the answer of each, with the list loaded from `file` as the
/// first structure. The answers are those of `run`, and so are the errors of reader and writer, which are the
/// inner error.
///
/// # Errors
///
/// Why the file was not loaded. No line was read then, and nothing was written.
pub fn ask<A: Allocator + Copy, F: Read, R: Source, W: Sink>(
    alloc: A,
    file: &mut F,
    reader: &mut Device<R>,
    writer: &mut Device<W>,
) -> Result<Result<(), RunError>, LoadError> {
    match load_file(&alloc, file) {
        Ok(structure) => Ok(run_from(Store::of(&alloc, structure), reader, writer)),
        Err(fault) => Err(fault),
    }
}
