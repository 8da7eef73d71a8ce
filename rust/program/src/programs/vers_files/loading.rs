//! Loading files.

use crate::rattle::prelude::*;

use crate::programs::catalogue::structure::{Kind, Structure};
use crate::rattle::Allocator;
use std::io::ErrorKind;
use std::io::Read;
use crate::programs::vers_cli::Source;
use crate::proved::vers_saved::fault::LoadError;
use crate::proved::vers_saved::stream::{fill, load as load_list};
use crate::proved::vers_saved::trees::load_tree;

// Returns the word of eight bytes.
fn word_of(bytes: [u8; 8]) -> u64 {
    u64::from_le_bytes(bytes)
}

/// Returns the number of the kind that bytes name: their third word, or 0 if they have none.
pub fn number_of_kind(bytes: &[u8]) -> u64 {
    let (words, _) = bytes.as_chunks::<8>();
    if words.len() <= 2 {
        return 0;
    }
    word_of(words[2])
}

// Returns a loaded list as a structure.
macro_rules! loaded_as {
    ($loaded:expr, $structure:path) => {
        match $loaded {
            Ok(list) => Ok($structure(list)),
            Err(fault) => Err(fault),
        }
    };
}

// Returns a loaded structure in a box. Its type is generic, so that the proof doesn't go through its fields.
fn boxed<T: Sized, A: Allocator>(
    alloc: A,
    loaded: Result<T, LoadError>,
) -> Result<Box<T, A>, LoadError> {
    match Box::new(alloc, loaded?) {
        Ok(boxed) => Ok(boxed),
        Err(_) => Err(LoadError::Memory),
    }
}

// Loads a tree from its saved form, the rest of a reader, as a structure.
fn tree_of_reader<'a, A: Allocator + Copy, R: Source>(
    alloc: &'a A,
    reader: &mut R,
) -> Result<Structure<'a, A>, LoadError> {
    loaded_as!(boxed(alloc, load_tree(alloc, reader)), Structure::Tree)
}

// Loads a list of a kind from its saved form, the rest of a reader, as a structure. Those of which files have no lists
// count as bits.
fn load_kind<'a, A: Allocator + Copy, R: Source>(
    alloc: &'a A,
    kind: Kind,
    reader: &mut R,
) -> Result<Structure<'a, A>, LoadError> {
    match kind {
        Kind::Sorted => loaded_as!(load_list(*alloc, reader), Structure::Sorted),
        Kind::Symbols => loaded_as!(load_list(*alloc, reader), Structure::Symbols),
        Kind::Sparse => loaded_as!(load_list(*alloc, reader), Structure::Sparse),
        Kind::Fast => loaded_as!(load_list(*alloc, reader), Structure::Fast),
        Kind::Tree => tree_of_reader(alloc, reader),
        Kind::Postings => loaded_as!(load_list(*alloc, reader), Structure::Postings),
        Kind::Inverted => loaded_as!(load_list(*alloc, reader), Structure::Inverted),
        Kind::Growing | Kind::Bits | Kind::Binary | Kind::Text => {
            loaded_as!(load_list(*alloc, reader), Structure::Bits)
        }
    }
}

// Loads a list of the kind with a number, or of bits if there is none, as `load_kind` does.
fn load_numbered<'a, A: Allocator + Copy, R: Source>(
    alloc: &'a A,
    number: u64,
    reader: &mut R,
) -> Result<Structure<'a, A>, LoadError> {
    let kind = Kind::of(number as usize).unwrap_or(Kind::Bits);
    load_kind(alloc, kind, reader)
}

/// Returns all bytes that a reader has left.
///
/// # Errors
///
/// `Read` if the reader fails; `Memory` if the allocator refuses a request.
pub fn read<A: Allocator, F: Read>(alloc: A, file: &mut F) -> Result<Vec<u8, A>, LoadError> {
    let mut bytes = Vec::new(alloc);
    match file.read_all(&mut bytes) {
        Ok(_) => Ok(bytes),
        Err(error) if error.kind() == ErrorKind::OutOfMemory => Err(LoadError::Memory),
        Err(_) => Err(LoadError::Read),
    }
}

/// The number of bytes of a file up to the end of the word that names its kind.
pub const NAMED: usize = 24;

/// Loads a list from its saved form, the rest of a reader, as a structure. It is read by blocks, and only its words
/// are kept, with no copy of the bytes.
///
/// # Errors
///
/// That of the bytes as a form of the kind that they name; `Memory` if the allocator refuses a request; `Read` if
/// the reader fails.
pub fn load_file<'a, A: Allocator + Copy, F: Read>(
    alloc: &'a A,
    file: &mut F,
) -> Result<Structure<'a, A>, LoadError> {
    let mut block = [0; NAMED];
    let filled = fill(file, &mut block)?;
    let front = &block[..filled];
    load_numbered(alloc, number_of_kind(front), &mut front.chain(file))
}

/// Returns the text of an error: its name, and what it means.
pub fn fault_line(fault: &LoadError) -> &'static str {
    match fault {
        LoadError::TooShort => "TooShort: the file is no saved form, or is cut off",
        LoadError::NotOurs => "NotOurs: the file does not begin as a saved list does",
        LoadError::OtherVersion => "OtherVersion: the list was saved by another version",
        LoadError::OtherKind =>
            "OtherKind: the file has a structure of another kind, or items of another width",
        LoadError::BadLength =>
            "BadLength: no list of this kind is as long, or the file goes on after it",
        LoadError::BadSum => "BadSum: the sum is not that of the bytes before it",
        LoadError::BadPadding => "BadPadding: a bit is set past the end of the list",
        LoadError::NotAscending => "NotAscending: the numbers do not ascend",
        LoadError::NotAText => "NotAText: no text has the column and the rows of the file",
        LoadError::Memory => "Memory: out of memory",
        LoadError::Read => "Read: the file can't be read",
    }
}
