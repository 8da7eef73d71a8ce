//! Replies to lines, and the current structure after them.

use crate::rattle::prelude::*;

use crate::programs::vers_cli::held::Held;
use crate::programs::vers_cli::load::{is_accepted, load};
use crate::programs::vers_cli::name::{Load, is_query, line_of, load_of};
use crate::programs::vers_cli::replies::line_reply;
use crate::programs::catalogue::structure::Structure;
use crate::rattle::AllocError;
use crate::rattle::Allocator;
use crate::programs::vers_engine::Replier;
use crate::programs::vers_words::loading::Loading;
use crate::programs::vers_words::reply::Reply;
use crate::programs::vers_words::text::{split_first_word, without_return};

/// The current structure, if there is one, with the allocator for answers and for the next structure.
pub struct Store<'a, A: Allocator + Copy> {
    alloc: &'a A,
    held: Held<'a, A>,
}

impl<'a, A: Allocator + Copy> Store<'a, A> {
    /// Returns a store without a structure.
    pub fn new(alloc: &'a A) -> Store<'a, A> {
        Store {
            alloc,
            held: Held::Nothing,
        }
    }

    /// Returns a store with this structure.
    pub fn of(alloc: &'a A, structure: Structure<'a, A>) -> Store<'a, A> {
        let held = Held::Holding(structure);
        Store { alloc, held }
    }

    /// Returns the allocator.
    pub(crate) fn allocator(&self) -> &'a A {
        self.alloc
    }

    // Returns the reply to a load line. The current structure is kept unless the line is accepted.
    fn load(&mut self, line: Load, arguments: &[u8]) -> Result<Reply<A>, AllocError> {
        self.make_room(line, arguments);
        match accept(&mut self.held, holding(load(self.alloc, line, arguments)))? {
            Loading::Malformed => Ok(Reply::BadLine),
            Loading::Inadmissible => Ok(Reply::Refused),
            Loading::Accepted(()) => Ok(Reply::Number(self.held.len())),
        }
    }

    // Drops the current structure if a load line is accepted, so that its memory is free for the next.
    fn make_room(&mut self, line: Load, arguments: &[u8]) {
        if is_accepted(line, arguments) {
            put(&mut self.held, Held::Nothing);
        }
    }

    // Returns the reply to a line that is no load line.
    fn query(&self, word: &[u8], arguments: &[u8]) -> Result<Reply<A>, AllocError> {
        if let Held::Holding(structure) = &self.held {
            if let Some(line) = line_of(structure, word) {
                return line_reply(*self.alloc, structure, line, arguments);
            }
        }
        if is_query(word) {
            Ok(Reply::WrongStructure)
        } else {
            Ok(Reply::BadLine)
        }
    }
}

/// Returns the result of a line that must be a load line. Errors: `AllocError` if the allocator refuses a request.
pub fn load_line<'a, A: Allocator + Copy>(
    alloc: &'a A,
    line: &[u8],
) -> Result<Loading<Structure<'a, A>>, AllocError> {
    let Some((word, arguments)) = split_first_word(without_return(line)) else {
        return Ok(Loading::Malformed);
    };
    match load_of(word) {
        None => Ok(Loading::Malformed),
        Some(line) => load(alloc, line, arguments),
    }
}

// Returns the result of a load line with its structure as the current one.
fn holding<'a, A: Allocator + Copy>(
    given: Result<Loading<Structure<'a, A>>, AllocError>,
) -> Result<Loading<Held<'a, A>>, AllocError> {
    match given {
        Ok(Loading::Malformed) => Ok(Loading::Malformed),
        Ok(Loading::Inadmissible) => Ok(Loading::Inadmissible),
        Ok(Loading::Accepted(structure)) => Ok(Loading::Accepted(Held::Holding(structure))),
        Err(error) => Err(error),
    }
}

// Replaces a value by another, and drops it.
fn put<H: Sized>(held: &mut H, new: H) {
    *held = new;
}

// Replaces the current structure by the result of a load line, if it is accepted. The type is generic, so that
// the proof doesn't go through its fields.
fn accept<H: Sized>(
    held: &mut H,
    given: Result<Loading<H>, AllocError>,
) -> Result<Loading<()>, AllocError> {
    match given {
        Ok(Loading::Malformed) => Ok(Loading::Malformed),
        Ok(Loading::Inadmissible) => Ok(Loading::Inadmissible),
        Ok(Loading::Accepted(new)) => {
            put(held, new);
            Ok(Loading::Accepted(()))
        }
        Err(error) => Err(error),
    }
}

impl<A: Allocator + Copy> Replier<A> for Store<'_, A> {
    fn reply(&mut self, word: &[u8], arguments: &[u8]) -> Result<Reply<A>, AllocError> {
        match load_of(word) {
            Some(line) => self.load(line, arguments),
            None => self.query(word, arguments),
        }
    }
}
