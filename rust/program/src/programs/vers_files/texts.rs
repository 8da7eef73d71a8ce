//! Lines about the text of a file, which is saved as its index or as a list of symbols.

use crate::rattle::prelude::*;

use crate::programs::vers_files::loading::{NAMED, fault_line, load_file, number_of_kind};
use crate::programs::catalogue::structure::Structure;
use crate::rattle::AllocError;
use crate::rattle::Allocator;
use std::io::Read;
use crate::proved::text_index::{MAX_LEN, TextError, TextIndex};
use crate::proved::vers_saved::fault::LoadError;
use crate::proved::vers_saved::kind::TEXTS;
use crate::proved::vers_saved::stream::fill;
use crate::proved::vers_saved::texts::load_text as load_saved_text;
use crate::programs::vers_texts::{Device, RunError, Sink, Source, Store, run_from};
use crate::proved::vers_wavelet::wavelet::WaveletMatrix;

/// Why the lines about the text of a file were not answered: the first reason that applies.
#[derive(Clone, Copy, PartialEq, Eq, Debug)]
pub enum TextFault {
    /// The file was not loaded.
    File(LoadError),
    /// It is neither an index of a text nor a list of symbols.
    NoSymbols,
    /// Its symbols have 0 bits, or more than 16.
    OtherWidth,
    /// There are more symbols than a text can have.
    TooLong,
    /// The allocator refused a request for the symbols or the index.
    Memory,
}

impl From<AllocError> for TextFault {
    fn from(_: AllocError) -> TextFault {
        TextFault::Memory
    }
}

// The symbols of a list, and the number of bits of each.
struct PlainSymbols<A: Allocator> {
    width: u16,
    items: Vec<u64, A>,
}

/// Reads lines to the end of the input and writes the answer of each, with the text loaded from `file`, the
/// saved form of the index of a text, or of a list of symbols of 1 to 16 bits. The answers are those of the program
/// over texts, and so are the errors of reader and writer, which are the inner error. Symbols are indexed before the
/// first line, and the loaded list is dropped before that.
///
/// # Errors
///
/// Why the file is no text. No line was read then, and nothing was written.
pub fn ask_text<A: Allocator + Copy, F: Read, R: Source, W: Sink>(
    alloc: A,
    file: &mut F,
    reader: &mut Device<R>,
    writer: &mut Device<W>,
) -> Result<Result<(), RunError>, TextFault> {
    match load_text(alloc, file) {
        Ok(text) => Ok(run_from(alloc, Store::of(alloc, text), reader, writer)),
        Err(fault) => Err(fault),
    }
}

// Loads a text from a saved form, the rest of a reader, and returns its index.
fn load_text<A: Allocator + Copy, F: Read>(
    alloc: A,
    file: &mut F,
) -> Result<TextIndex<A>, TextFault> {
    let mut block = [0; NAMED];
    let filled = match fill(file, &mut block) {
        Ok(filled) => filled,
        Err(fault) => return Err(TextFault::File(fault)),
    };
    let front = &block[..filled];
    if number_of_kind(front) == TEXTS {
        return load_index(alloc, &mut front.chain(file));
    }
    index_symbols(alloc, &mut front.chain(file))
}

// Loads the index of a text from its saved form, the rest of a reader.
fn load_index<A: Allocator + Copy, R: Source>(
    alloc: A,
    reader: &mut R,
) -> Result<TextIndex<A>, TextFault> {
    match load_saved_text(alloc, reader) {
        Ok(text) => Ok(text),
        Err(fault) => Err(TextFault::File(fault)),
    }
}

// Loads the symbols of a text from their saved form, the rest of a reader, and returns their index. The loaded list
// is dropped before that.
fn index_symbols<A: Allocator + Copy, F: Read>(
    alloc: A,
    file: &mut F,
) -> Result<TextIndex<A>, TextFault> {
    let symbols = load_symbols(alloc, file)?;
    indexed(alloc, symbols.items.as_slice(), symbols.width)
}

// Loads symbols from their saved form, the rest of a reader. Their index is dropped.
fn load_symbols<A: Allocator + Copy, F: Read>(
    alloc: A,
    file: &mut F,
) -> Result<PlainSymbols<A>, TextFault> {
    symbols_of(alloc, load_file(&alloc, file))
}

// Returns the symbols of what was loaded, which is dropped. Its type is generic, so that the proof doesn't go
// through its fields.
fn symbols_of<A: Allocator + Copy, O: Owner<A>>(
    alloc: A,
    loaded: Result<O, LoadError>,
) -> Result<PlainSymbols<A>, TextFault> {
    match loaded {
        Ok(owner) => owner.symbols(alloc),
        Err(fault) => Err(TextFault::File(fault)),
    }
}

// An owner of a list.
trait Owner<A: Allocator + Copy>: Sized {
    // Returns the symbols.
    fn symbols(&self, alloc: A) -> Result<PlainSymbols<A>, TextFault>;
}

impl<A: Allocator + Copy> Owner<A> for Structure<'_, A> {
    fn symbols(&self, alloc: A) -> Result<PlainSymbols<A>, TextFault> {
        let Structure::Symbols(symbols) = self else {
            return Err(TextFault::NoSymbols);
        };
        let width = symbols.bit_len();
        if width == 0 || width > 16 {
            return Err(TextFault::OtherWidth);
        }
        Ok(PlainSymbols {
            width,
            items: items_of(alloc, symbols)?,
        })
    }
}

// Returns the items of a list of symbols of at most 64 bits.
fn items_of<A: Allocator + Copy>(
    alloc: A,
    symbols: &WaveletMatrix<A>,
) -> Result<Vec<u64, A>, AllocError> {
    let mut items = Vec::with_capacity(alloc, symbols.len())?;
    for place in 0..symbols.len() {
        items.push(symbols.get_u64_unchecked(place))?;
    }
    Ok(items)
}

// Returns the index of a text of a width that texts may have.
fn indexed<A: Allocator + Copy>(
    alloc: A,
    symbols: &[u64],
    width: u16,
) -> Result<TextIndex<A>, TextFault> {
    match TextIndex::from_slice(alloc, symbols, width) {
        Ok(text) => Ok(text),
        Err(TextError::TooLong) => Err(TextFault::TooLong),
        Err(_) => Err(TextFault::Memory),
    }
}

/// Returns the text of an error: its name, and what it means.
pub fn text_fault_line(fault: &TextFault) -> &'static str {
    match fault {
        TextFault::File(fault) => fault_line(fault),
        TextFault::NoSymbols => "NoSymbols: the file has neither a text nor symbols",
        TextFault::OtherWidth => "OtherWidth: the symbols of a text have 1 to 16 bits",
        TextFault::TooLong => "TooLong: a text has at most 4294967294 symbols",
        TextFault::Memory => "Memory: out of memory",
    }
}
