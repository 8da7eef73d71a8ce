//! Replies to lines, and the current text after them.

use crate::rattle::prelude::*;

use crate::programs::vers_texts::name::Name;
use crate::programs::vers_texts::queries;
use crate::rattle::AllocError;
use crate::rattle::Allocator;
use crate::proved::text_index::{MAX_LEN, TextIndex};
use crate::programs::vers_engine::Replier;
use crate::proved::vers_sorted::order::are_below;
use crate::programs::vers_words::patterns::number_and_pattern;
use crate::programs::vers_words::reply::Reply;

/// The current text, if there is one, with the allocator for answers and for the next text. Contracts see its
/// symbols.
pub struct Store<A: Allocator + Copy> {
    alloc: A,
    held: Option<TextIndex<A>>,
}

impl<A: Allocator + Copy> Store<A> {
    /// Returns a store without a text.
    pub fn new(alloc: A) -> Store<A> {
        Store { alloc, held: None }
    }

    /// Returns a store with the text of this index.
    pub fn of(alloc: A, text: TextIndex<A>) -> Store<A> {
        let held = Some(text);
        Store { alloc, held }
    }

    // Returns the reply to the load line `text K PATTERN`. The current text is kept unless the line is accepted.
    fn load(&mut self, arguments: &[u8]) -> Result<Reply<A>, AllocError> {
        let Some((width, symbols)) = number_and_pattern(self.alloc, arguments)? else {
            return Ok(Reply::BadLine);
        };
        if !is_text(width, symbols.as_slice()) {
            return Ok(Reply::Refused);
        }
        self.hold(width as u16, symbols.as_slice())?;
        Ok(Reply::Number(symbols.len() as u64))
    }

    // Replaces the current text, which is dropped first, so that its memory is free. A text that passed the
    // tests fails only if the allocator refuses a request.
    fn hold(&mut self, width: u16, symbols: &[u64]) -> Result<(), AllocError> {
        drop(self.held.take());
        accept(
            &mut self.held,
            TextIndex::from_slice(self.alloc, symbols, width),
        )
    }
}

// Replaces the current text by the result, if it is no error. The type is generic, so that the proof doesn't go
// through its fields.
fn accept<H: Sized, E: Sized>(held: &mut Option<H>, made: Result<H, E>) -> Result<(), AllocError> {
    match made {
        Ok(new) => {
            drop(held.replace(new));
            Ok(())
        }
        Err(_) => Err(AllocError),
    }
}

// The greatest number of bits of a symbol.
const WIDEST: u64 = 16;

// Returns true if the symbols and their width make a text.
fn is_text(width: u64, symbols: &[u64]) -> bool {
    if width == 0 || width > WIDEST {
        return false;
    }
    symbols.len() <= MAX_LEN && are_below(symbols, 1 << width)
}

impl<A: Allocator + Copy> Replier<A> for Store<A> {
    fn reply(&mut self, word: &[u8], arguments: &[u8]) -> Result<Reply<A>, AllocError> {
        match Name::of(word) {
            None => Ok(Reply::BadLine),
            Some(Name::Text) => self.load(arguments),
            Some(Name::Query(query)) => match &self.held {
                None => Ok(Reply::WrongStructure),
                Some(text) => queries::reply(self.alloc, text, query, arguments),
            },
        }
    }
}
