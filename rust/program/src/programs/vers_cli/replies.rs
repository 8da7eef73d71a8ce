//! Replies to query lines.

use crate::rattle::prelude::*;

use crate::programs::vers_cli::lists::{all_reply, common_reply, documents_reply, joined_reply, walk_reply};
use crate::programs::vers_cli::name::{Arguments, Line, Written};
use crate::programs::catalogue::answer::Answer;
use crate::programs::catalogue::structure::Structure;
use crate::rattle::AllocError;
use crate::rattle::Allocator;
use crate::programs::vers_words::arguments::{
    all_numbers, no_arguments, number_and_signed, one_number, three_numbers, two_numbers,
};
use crate::programs::vers_words::reply::Reply;

// Returns the numbers of a query in the arguments of its line, 0 for those that it doesn't have. `None` if the
// arguments are malformed.
fn numbers_of(kind: Arguments, arguments: &[u8]) -> Option<(u64, u64, u64)> {
    match kind {
        Arguments::NoNumber => {
            no_arguments(arguments)?;
            Some((0, 0, 0))
        }
        Arguments::OneNumber => Some((one_number(arguments)?, 0, 0)),
        Arguments::TwoNumbers => {
            let (a, b) = two_numbers(arguments)?;
            Some((a, b, 0))
        }
        Arguments::ThreeNumbers => three_numbers(arguments),
        Arguments::WithSigned => {
            let (a, signed) = number_and_signed(arguments)?;
            Some((a, signed.cast_unsigned(), 0))
        }
    }
}

// Returns the reply that an answer is written as.
fn reply_of<A: Allocator + Copy>(written: Written, answer: Answer) -> Reply<A> {
    match answer {
        Answer::Found(number) => match written {
            Written::Signed => Reply::Signed(number.cast_signed()),
            Written::Plain | Written::Required => Reply::Number(number),
        },
        Answer::Absent => match written {
            Written::Required => Reply::Refused,
            Written::Plain | Written::Signed => Reply::Absent,
        },
        Answer::Refused => Reply::Refused,
        Answer::Unknown => Reply::WrongStructure,
    }
}

/// Returns the reply to a query line. Errors: `AllocError` if the allocator refuses a request.
pub fn line_reply<A: Allocator + Copy>(
    alloc: A,
    structure: &Structure<'_, A>,
    line: Line,
    arguments: &[u8],
) -> Result<Reply<A>, AllocError> {
    match line {
        Line::Number(query, kind, written) => match numbers_of(kind, arguments) {
            None => Ok(Reply::BadLine),
            Some((a, b, c)) => Ok(reply_of(written, structure.answer(query, a, b, c))),
        },
        Line::All(listing) => match no_arguments(arguments) {
            None => Ok(Reply::BadLine),
            Some(()) => all_reply(alloc, structure, listing),
        },
        Line::Walk(nodes) => match one_number(arguments) {
            None => Ok(Reply::BadLine),
            Some(node) => walk_reply(alloc, structure, nodes, node as usize),
        },
        Line::Common => match all_numbers(alloc, arguments) {
            Ok(None) => Ok(Reply::BadLine),
            Ok(Some(documents)) => common_reply(alloc, structure, documents.as_slice()),
            Err(error) => Err(error),
        },
        Line::Documents => match one_number(arguments) {
            None => Ok(Reply::BadLine),
            Some(term) => documents_reply(alloc, structure, term),
        },
        Line::Joined(joint) => match two_numbers(arguments) {
            None => Ok(Reply::BadLine),
            Some((one, other)) => joined_reply(alloc, structure, joint, one, other),
        },
    }
}
