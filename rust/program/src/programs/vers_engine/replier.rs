//! Replying to lines by their first word.

use crate::rattle::prelude::*;

use crate::programs::vers_engine::answerer::Answerer;
use crate::rattle::AllocError;
use crate::rattle::Allocator;
use crate::programs::vers_words::reply::Reply;
use crate::programs::vers_words::text::{split_first_word, without_return};

/// A type that replies to lines, one after another. The reply to a line, and the replier afterwards, depend
/// only on the line's first word, the text after it, and the replier before. It answers a line with the text of
/// its reply, and a line without words with nothing. It implements `Answerer`.
pub trait Replier<A: Allocator + Copy> {
    /// Returns the reply to a line, from its first word and the text after it. Errors: `AllocError` if the
    /// allocator refuses a request; the state of `self` is then unspecified, and the run ends.
    fn reply(&mut self, word: &[u8], arguments: &[u8]) -> Result<Reply<A>, AllocError>;
}

impl<A: Allocator + Copy, S: Replier<A>> Answerer<A> for S {
    fn answer(&mut self, line: &[u8], answers: &mut Vec<u8, A>) -> Result<(), AllocError> {
        let len = answers.len();
        let result = append_answer(self, line, answers);
        if result.is_err() {
            answers.truncate(len);
        }
        result
    }
}

// Appends the answer of a line, with its end. A line without words has none. On error a part of it may have
// been appended.
fn append_answer<A: Allocator + Copy, S: Replier<A>>(
    replier: &mut S,
    line: &[u8],
    answers: &mut Vec<u8, A>,
) -> Result<(), AllocError> {
    let Some((word, arguments)) = split_first_word(without_return(line)) else {
        return Ok(());
    };
    append_line(replier.reply(word, arguments)?, answers)
}

// Appends a reply with the end of its line. On error a part of it may have been appended.
fn append_line<A: Allocator + Copy>(
    reply: Reply<A>,
    answers: &mut Vec<u8, A>,
) -> Result<(), AllocError> {
    reply.append_to(answers)?;
    answers.push(b'\n')?;
    Ok(())
}
