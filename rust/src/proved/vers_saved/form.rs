//! The saved form of any list: a head, words and a checksum.

use crate::rattle::prelude::*;

use crate::proved::vers_saved::fault::LoadError;
use crate::proved::vers_saved::kind::{Kind, Order, Rows};
use crate::proved::vers_saved::words::{
    Chunks, FRAME, Words, copy_summed, is_in_order, is_padded, mixed, put_word, sum_before,
};
use crate::proved::vers_saved::{MAGIC, START};
use crate::rattle::AllocError;
use crate::rattle::Allocator;
use crate::proved::vers_bits::bit_vec::{BitVec, MAX_LEN};

/// The number of words in a head.
pub(crate) const HEAD: usize = 5;

/// The shape of a list: its number of items and their width.
#[derive(Clone, Copy)]
pub struct Shape {
    /// The number of its items.
    pub count: usize,
    /// The width of its items, or the block size of a tree.
    pub width: usize,
}

// Appends a word, for which there is room. Returns the sum with the word mixed in.
#[inline(always)]
pub(crate) fn put_summed<B: Allocator>(out: &mut Vec<u8, B>, sum: u64, word: u64) -> u64 {
    put_word(out, word);
    mixed(sum, word)
}

// Appends words, for which there is room. Returns the sum with them mixed in.
pub(crate) fn put_words<B: Allocator>(out: &mut Vec<u8, B>, sum: u64, words: &[u64]) -> u64 {
    let mut mixed = sum;
    for k in 0..words.len() {
        mixed = put_summed(out, mixed, words[k]);
    }
    mixed
}

// Appends the head of a saved form, for which there is room. Returns its sum.
pub(crate) fn put_head<B: Allocator>(out: &mut Vec<u8, B>, kind: &Kind, shape: Shape) -> u64 {
    let sum = put_summed(out, START, MAGIC);
    let sum = put_summed(out, sum, kind.version);
    let sum = put_summed(out, sum, kind.number);
    let sum = put_summed(out, sum, shape.width as u64);
    put_summed(out, sum, shape.count as u64)
}

/// The contents of a head: the version, the shape of the list, and the rows of its bits.
#[derive(Clone, Copy)]
pub(crate) struct Head {
    pub(crate) version: u64,
    pub(crate) shape: Shape,
    pub(crate) rows: Rows,
}

// Returns the head of words, if they are the saved form of a list of that kind.
pub(crate) fn head_of<W: Words>(kind: &Kind, words: &W) -> Result<Head, LoadError> {
    if words.word(0) != MAGIC {
        return Err(LoadError::NotOurs);
    }
    if words.word(2) != kind.number {
        return Err(LoadError::OtherKind);
    }
    if words.word(1) != kind.version {
        return Err(LoadError::OtherVersion);
    }
    let width = words.word(3) as usize;
    if !kind.takes_width(width as u64) {
        return Err(LoadError::OtherKind);
    }
    let count = words.word(4) as usize;
    if !kind.takes_count(count as u64) {
        return Err(LoadError::BadLength);
    }
    let rows = match kind.rows_of_items(count, width) { Some(rows) => rows, _ => {
        return Err(LoadError::BadLength);
    } };
    Ok(Head {
        version: kind.version,
        shape: Shape { count, width },
        rows,
    })
}

// Tests the part after a head that says these rows, of as many words as they fill, if `sum` is the sum of the
// words before the last one.
fn test_summed<W: Words>(order: Order, rows: Rows, sum: u64, words: &W) -> Result<(), LoadError> {
    if words.word(rows.words() + FRAME - 1) != sum {
        return Err(LoadError::BadSum);
    }
    if !is_padded(rows, words) {
        return Err(LoadError::BadPadding);
    }
    if !is_in_order(order, rows.words(), words) {
        return Err(LoadError::NotAscending);
    }
    Ok(())
}

// Makes the same tests, and computes the sum.
pub(crate) fn test_body<W: Words>(order: Order, rows: Rows, words: &W) -> Result<(), LoadError> {
    let sum = sum_before(rows.words() + FRAME - 1, words);
    test_summed(order, rows, sum, words)
}

// Returns the words of the content, if they pass these tests. One pass copies and sums them; if the allocator
// refuses memory for the copy, it still tests them.
fn tested_words<W: Words, A: Allocator>(
    alloc: A,
    order: Order,
    rows: Rows,
    words: &W,
) -> Result<Vec<u64, A>, LoadError> {
    let mut kept = match Vec::with_capacity(alloc, rows.words()) { Ok(kept) => kept, _ => {
        test_body(order, rows, words)?;
        return Err(LoadError::Memory);
    } };
    let sum = copy_summed(rows.words(), words, &mut kept);
    test_summed(order, rows, sum, words)?;
    Ok(kept)
}

// Returns the head of bytes, if there are as many as it says. Their errors are then those of the part after it.
fn test_bytes(kind: &Kind, bytes: &[u8]) -> Result<Head, LoadError> {
    let (chunks, _) = bytes.as_arrays::<8>();
    if chunks.len() < FRAME {
        return Err(LoadError::TooShort);
    }
    let words = Chunks { chunks };
    let head = head_of(kind, &words)?;
    let size = 8 * (head.rows.words() + FRAME);
    if bytes.len() < size {
        return Err(LoadError::TooShort);
    }
    if bytes.len() > size {
        return Err(LoadError::BadLength);
    }
    Ok(head)
}

/// A version, a shape, and the words of the items.
pub(crate) struct Form<A: Allocator> {
    pub(crate) version: u64,
    pub(crate) shape: Shape,
    pub(crate) words: Vec<u64, A>,
}

// Returns the shape and the words of a saved form, for a list of that kind and its version.
fn exact_form<A: Allocator>(alloc: A, kind: Kind, bytes: &[u8]) -> Result<Form<A>, LoadError> {
    let head = test_bytes(&kind, bytes)?;
    let (chunks, _) = bytes.as_arrays::<8>();
    let words = tested_words(alloc, kind.order, head.rows, &Chunks { chunks })?;
    Ok(Form {
        version: kind.version,
        shape: head.shape,
        words,
    })
}

// Returns the version that bytes name, their second word, or 0 if they have none.
fn version_said(bytes: &[u8]) -> u64 {
    let (chunks, _) = bytes.as_arrays::<8>();
    if chunks.len() <= 1 {
        return 0;
    }
    Chunks { chunks }.word(1)
}

// Returns the shape and the words of a saved form, for a list of that kind in the version that the bytes name.
pub(crate) fn form_of<A: Allocator>(
    alloc: A,
    kind: Kind,
    bytes: &[u8],
) -> Result<Form<A>, LoadError> {
    exact_form(alloc, kind.at_version(version_said(bytes)), bytes)
}

// Takes the words out of a vector.
pub(crate) fn taken<A: Allocator + Copy>(held: &mut Vec<u64, A>) -> Vec<u64, A> {
    let alloc = *held.allocator();
    std::mem::replace(held, Vec::new(alloc))
}

// Returns the first `len` bits of words, of which there are no more than these bits need.
pub(crate) fn first_bits<A: Allocator + Copy>(len: usize, words: Vec<u64, A>) -> BitVec<A> {
    let mut bits = BitVec::from_vec(words).unwrap();
    let past = bits.len() - len;
    bits.drop_last(past);
    bits
}

// Returns the bits of the items in words, of a list of that kind and shape, one item after another.
pub(crate) fn bits_of<A: Allocator + Copy>(kind: &Kind, of: Shape, words: Vec<u64, A>) -> BitVec<A> {
    first_bits(of.count * kind.bits_of_item(of.width), words)
}
