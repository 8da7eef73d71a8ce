//! Words of a saved form, gathered from any reader a block at a time.

use crate::rattle::prelude::*;

use crate::proved::vers_saved::fault::LoadError;
use crate::proved::vers_saved::form::{Form, HEAD, Head, head_of, test_body};
use crate::proved::vers_saved::kind::{Kind, Rows};
use crate::proved::vers_saved::numbers::are_words;
use crate::proved::vers_saved::words::{FRAME, TwoParts, word_of};
use crate::rattle::AllocError;
use crate::rattle::Allocator;
use std::io;
use crate::rattle::io::Source;

/// The greatest number of bytes read or written at once.
pub(crate) const BLOCK: usize = 65536;

// Reads once into a block, after the bytes that were read before.
fn read_behind<R: Source>(reader: &mut R, block: &mut [u8], filled: usize) -> io::Result<usize> {
    reader.read_once(&mut block[filled..])
}

/// Reads until a block is full, or the reader ends. Returns the number of bytes read. Errors: `Read` if the
/// reader fails.
pub fn fill<R: Source>(reader: &mut R, block: &mut [u8]) -> Result<usize, LoadError> {
    let mut filled = 0;
    while filled < block.len() {
        match read_behind(reader, block, filled) {
            Ok(0) => return Ok(filled),
            Ok(given) => filled += given,
            Err(_) => return Err(LoadError::Read),
        }
    }
    Ok(filled)
}

// Reserves room for `more` words, and for as many as there are, but at most for `missing`. So words are moved
// few times, and the vector takes no more memory than all words need.
fn make_room<A: Allocator>(
    words: &mut Vec<u64, A>,
    more: usize,
    missing: usize,
) -> Result<(), AllocError> {
    if words.capacity() - words.len() >= more {
        return Ok(());
    }
    words.reserve_exact(words.len().max(more).min(missing))
}

// Appends the words of chunks of eight bytes.
fn append_words<A: Allocator>(words: &mut Vec<u64, A>, chunks: Arrays<'_, u8, 8>) -> Result<(), AllocError> {
    words.extend(chunks.iter().map(|chunk| word_of(*chunk)))
}

// Shows that all items of a slice are bytes.
fn are_bytes(items: &[u8]) {}

// Appends the words of a piece of `size` bytes, which a reader fills. Errors: `TooShort` if it ends before.
fn gather_piece<R: Source, A: Allocator>(
    reader: &mut R,
    piece: &mut [u8],
    size: usize,
    words: &mut Vec<u64, A>,
    missing: usize,
) -> Result<(), LoadError> {
    let filled = fill(reader, piece)?;
    if filled < size {
        return Err(LoadError::TooShort);
    }
    are_bytes(piece);
    make_room(words, size / 8, missing)?;
    let (chunks, _) = piece.as_arrays::<8>();
    append_words(words, chunks)?;
    Ok(())
}

// Appends words until there are `count`. Errors: `TooShort` if the reader ends before.
fn gather<R: Source, A: Allocator>(
    reader: &mut R,
    block: &mut [u8],
    words: &mut Vec<u64, A>,
    count: usize,
) -> Result<(), LoadError> {
    while words.len() < count {
        let missing = count - words.len();
        let most = (8 * missing).min(BLOCK);
        if let Err(fault) = gather_piece(reader, &mut block[..most], most, words, missing) {
            return Err(fault);
        }
    }
    Ok(())
}

// Tests that a reader has ended. Errors: `BadLength` if it has more bytes.
fn test_end<R: Source>(reader: &mut R, block: &mut [u8]) -> Result<(), LoadError> {
    match reader.read_once(block) {
        Ok(0) => Ok(()),
        Ok(_) => Err(LoadError::BadLength),
        Err(_) => Err(LoadError::Read),
    }
}

// Gathers the head of the form in a reader. No word was gathered before.
fn gather_head<R: Source, A: Allocator>(
    kind: &Kind,
    reader: &mut R,
    block: &mut [u8],
    words: &mut Vec<u64, A>,
) -> Result<Head, LoadError> {
    if let Err(fault) = gather(reader, block, words, FRAME) {
        return Err(fault);
    }
    are_words(words.as_slice());
    head_of(&kind.at_version(words[1]), words)
}

// Removes a head from the words that begin with it, and returns it. One more word is left.
fn cut_head<A: Allocator>(words: &mut Vec<u64, A>) -> [u64; HEAD] {
    let head = [words[0], words[1], words[2], words[3], words[4]];
    words[0] = words[5];
    words.truncate(1);
    head
}

// Gathers the words after a head, up to the sum, of the form in a reader. The head is separate, and one word
// after it was gathered.
fn gather_body<R: Source, A: Allocator>(
    kind: &Kind,
    rows: Rows,
    head: &[u64],
    reader: &mut R,
    block: &mut [u8],
    words: &mut Vec<u64, A>,
) -> Result<(), LoadError> {
    if let Err(fault) = gather(reader, block, words, rows.words() + 1) {
        return Err(fault);
    }
    if let Err(fault) = test_end(reader, block) {
        return Err(fault);
    }
    let rest = words.as_slice();
    are_words(rest);
    test_body(kind.order, rows, &TwoParts { front: head, rest })
}

// Returns the head of the saved form that is the rest of a reader, for a list of that kind, and gathers its words;
// none was gathered before.
fn gather_form<R: Source, A: Allocator>(
    kind: &Kind,
    reader: &mut R,
    block: &mut [u8],
    words: &mut Vec<u64, A>,
) -> Result<Head, LoadError> {
    let found = gather_head(kind, reader, block, words)?;
    let used = kind.at_version(found.version);
    let head = cut_head(words);
    if let Err(fault) = gather_body(&used, found.rows, &head, reader, block, words) {
        return Err(fault);
    }
    words.truncate(found.rows.words());
    Ok(found)
}

// Returns the shape and the words of the saved form that is the rest of a reader, for a list of that kind in the
// version that it names.
pub(crate) fn form_from<R: Source, A: Allocator + Copy>(
    alloc: A,
    kind: Kind,
    reader: &mut R,
) -> Result<Form<A>, LoadError> {
    let mut block = Vec::from_elem(alloc, 0u8, BLOCK)?;
    let mut words = Vec::new(alloc);
    match gather_form(&kind, reader, block.as_mut_slice(), &mut words) {
        Ok(
            Head {
                version,
                shape,
                rows: _,
            },
        ) => Ok(Form {
            version,
            shape,
            words,
        }),
        Err(fault) => Err(fault),
    }
}
