//! Low parts, one after another: the last of them are gathered in a word, which is put behind the others once full.

use crate::rattle::prelude::*;

use crate::rattle::Allocator;

// Bits that don't fill a word yet: the lowest `len` digits of a word.
#[derive(Clone, Copy)]
pub(super) struct Gathered {
    pub(super) word: u64,
    pub(super) len: usize,
}

// Gathers the `width` lowest digits of a number, and returns the bits that don't fill a word yet. A full word is put
// behind the others, for which there is room: a request in the loop over the numbers would take its registers.
#[inline(always)]
pub(super) fn add_part<A: Allocator>(
    words: &mut Vec<u64, A>,
    gathered: Gathered,
    number: u64,
    width: usize,
) -> Gathered {
    let part = number & ((1 << width) - 1);
    let word = gathered.word | (part << gathered.len);
    let len = gathered.len + width;
    if len < 64 {
        return Gathered { word, len };
    }
    words.push_reserved(word);
    Gathered {
        word: part >> (64 - gathered.len),
        len: len - 64,
    }
}
