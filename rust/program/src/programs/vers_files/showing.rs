//! Descriptions of the structures of files.

use crate::rattle::prelude::*;

use crate::programs::vers_files::loading::{NAMED, load_file, number_of_kind};
use crate::programs::catalogue::structure::{Kind, Structure};
use crate::rattle::Allocator;
use std::io::Read;
use crate::programs::vers_cli::Source;
use crate::proved::vers_saved::fault::LoadError;
use crate::proved::vers_saved::kind::TEXTS;
use crate::proved::vers_saved::saved::saved_size;
use crate::proved::vers_saved::stream::fill;
use crate::proved::vers_saved::texts::load_text;

/// A description of the structure of a file.
#[derive(Clone, Copy)]
pub struct Shown {
    /// The kind.
    pub kind: Kind,
    /// The number of items.
    pub len: u64,
    /// The number of bits of an item in the file, or of a block of a tree.
    pub width: u64,
    /// The number of bytes of its saved form, in the version that is written; 0 if it has none.
    pub bytes: u64,
}

/// Returns the description of the structure in a saved form, the rest of a reader. Reads blocks, and at most one byte
/// past the end that the head gives.
///
/// # Errors
///
/// That of the bytes as a form of the kind that they name; `Memory` if the allocator refuses a request; `Read` if the
/// reader fails.
pub fn show<A: Allocator + Copy, F: Read>(alloc: A, file: &mut F) -> Result<Shown, LoadError> {
    let mut block = [0; NAMED];
    let filled = fill(file, &mut block)?;
    let front = &block[..filled];
    if number_of_kind(front) == TEXTS {
        return show_text(alloc, &mut front.chain(file));
    }
    show_list(alloc, &mut front.chain(file))
}

// Returns the description of the index of a text in its saved form, the rest of a reader.
fn show_text<A: Allocator + Copy, R: Source>(alloc: A, reader: &mut R) -> Result<Shown, LoadError> {
    match load_text(alloc, reader) {
        Ok(text) => Ok(Shown {
            kind: Kind::Text,
            len: text.len() as u64,
            width: u64::from(text.bits_per_symbol()),
            bytes: saved_size(&text).unwrap_or(0) as u64,
        }),
        Err(fault) => Err(fault),
    }
}

// Returns the description of the list in a saved form, the rest of a reader.
fn show_list<A: Allocator + Copy, F: Read>(alloc: A, file: &mut F) -> Result<Shown, LoadError> {
    match load_file(&alloc, file) {
        Ok(structure) => {
            let shown = description_of(&structure);
            // (by a call, so that the proof of this function doesn't go through the fields)
            drop(structure);
            Ok(shown)
        }
        Err(fault) => Err(fault),
    }
}

// Returns the description of a structure, which has a saved form.
fn description_of<A: Allocator + Copy>(structure: &Structure<'_, A>) -> Shown {
    Shown {
        kind: structure.kind().unwrap_or(Kind::Bits),
        len: structure.len(),
        width: structure.item_width(),
        bytes: structure.saved_size().unwrap_or(0) as u64,
    }
}
