//! The query lines of a text.

use crate::rattle::prelude::*;

use crate::programs::vers_texts::name::Query;
use crate::programs::vers_texts::sites::sites_reply;
use crate::rattle::AllocError;
use crate::rattle::Allocator;
use crate::proved::text_index::TextIndex;
use crate::programs::vers_words::arguments::{no_arguments, two_numbers};
use crate::programs::vers_words::patterns::{append_pattern, number_and_pattern, pattern};
use crate::programs::vers_words::reply::Reply;

/// Returns the reply to a query of this text. Errors: `AllocError` if the allocator refuses a request.
pub fn reply<A: Allocator + Copy>(
    alloc: A,
    text: &TextIndex<A>,
    query: Query,
    arguments: &[u8],
) -> Result<Reply<A>, AllocError> {
    match query {
        Query::Len => match no_arguments(arguments) {
            None => Ok(Reply::BadLine),
            Some(()) => Ok(Reply::Number(text.len() as u64)),
        },
        Query::Count => match pattern(alloc, arguments)? {
            None => Ok(Reply::BadLine),
            Some(pattern) => Ok(Reply::Number(text.count(pattern.as_slice()) as u64)),
        },
        Query::Positions => match pattern(alloc, arguments)? {
            None => Ok(Reply::BadLine),
            Some(pattern) => positions_reply(alloc, text, pattern.as_slice()),
        },
        Query::First => match number_and_pattern(alloc, arguments)? {
            None => Ok(Reply::BadLine),
            Some((limit, pattern)) => first_reply(alloc, text, limit as usize, pattern.as_slice()),
        },
        Query::Extract => match two_numbers(arguments) {
            None => Ok(Reply::BadLine),
            Some((from, to)) => piece_reply(text, from as usize, to as usize),
        },
        Query::Piece => match two_numbers(arguments) {
            None => Ok(Reply::BadLine),
            Some((from, to)) => pattern_reply(alloc, text, from as usize, to as usize),
        },
        Query::Sites => match pattern(alloc, arguments)? {
            None => Ok(Reply::BadLine),
            Some(pattern) => sites_reply(alloc, text, pattern.as_slice()),
        },
    }
}

// Returns the reply with the positions of a pattern, ascending.
fn positions_reply<A: Allocator + Copy>(
    alloc: A,
    text: &TextIndex<A>,
    pattern: &[u64],
) -> Result<Reply<A>, AllocError> {
    let positions = text.places_ascending(pattern)?;
    Ok(Reply::Numbers(numbers_of(alloc, positions.as_slice())?))
}

// Returns the reply with the first positions of a pattern in suffix-array order, at most `limit`.
fn first_reply<A: Allocator + Copy>(
    alloc: A,
    text: &TextIndex<A>,
    limit: usize,
    pattern: &[u64],
) -> Result<Reply<A>, AllocError> {
    let positions = text.first_places(pattern, limit)?;
    Ok(Reply::Numbers(numbers_of(alloc, positions.as_slice())?))
}

// Returns positions as numbers of 64 bits.
fn numbers_of<A: Allocator>(alloc: A, positions: &[usize]) -> Result<Vec<u64, A>, AllocError> {
    let mut numbers = Vec::with_capacity(alloc, positions.len())?;
    for position in positions {
        numbers.push(*position as u64)?;
    }
    Ok(numbers)
}

// Returns the reply with the symbols from one position on, before another.
fn piece_reply<A: Allocator + Copy>(
    text: &TextIndex<A>,
    from: usize,
    to: usize,
) -> Result<Reply<A>, AllocError> {
    match text.extract(from..to)? {
        None => Ok(Reply::Absent),
        Some(symbols) => Ok(Reply::Numbers(symbols)),
    }
}

// Returns the reply with the symbols from one position on, before another, as a pattern.
fn pattern_reply<A: Allocator + Copy>(
    alloc: A,
    text: &TextIndex<A>,
    start: usize,
    end: usize,
) -> Result<Reply<A>, AllocError> {
    let Some(symbols) = text.extract(start..end)? else {
        return Ok(Reply::Absent);
    };
    let mut line = Vec::new(alloc);
    append_pattern(symbols.as_slice(), &mut line)?;
    Ok(Reply::Text(line))
}
