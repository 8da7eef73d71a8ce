//! The words and numbers of a line.

use crate::rattle::prelude::*;

/// Returns the first position of a byte in a text, or `None` if there is none.
pub fn position_of(byte: u8, text: &[u8]) -> Option<usize> {
    text.iter().position(|other| *other == byte)
}

// Returns the position of the first byte that is no space.
fn first_of_word(text: &[u8]) -> Option<usize> {
    text.iter().position(|byte| *byte != b' ')
}

/// Returns the first word of a text and the text after it, or `None` if the text has no word.
pub fn split_first_word(text: &[u8]) -> Option<(&[u8], &[u8])> {
    let from_word = &text[first_of_word(text)?..];
    let len = position_of(b' ', from_word).unwrap_or(from_word.len());
    Some((&from_word[..len], &from_word[len..]))
}

/// Returns a line without a byte 13 at its end.
pub fn without_return(line: &[u8]) -> &[u8] {
    let n = line.len();
    if n != 0 && line[n - 1] == b'\r' {
        &line[..n - 1]
    } else {
        line
    }
}

/// Returns the number below 2^64 that a word represents in decimal digits, or `None` if it represents none.
pub fn number(word: &[u8]) -> Option<u64> {
    if word.is_empty() {
        return None;
    }
    let mut value = 0u64;
    for byte in word {
        if !byte.is_ascii_digit() {
            return None;
        }
        value = value.checked_mul(10)?.checked_add(u64::from(*byte - b'0'))?;
    }
    Some(value)
}

/// Returns the number from -2^63 on, below 2^63, that a word represents in decimal digits, with `-` before them
/// if it is negative. `None` if it represents none.
pub fn signed_number(word: &[u8]) -> Option<i64> {
    let (first, digits) = word.split_first()?;
    if *first == b'-' {
        0i64.checked_sub_unsigned(number(digits)?)
    } else {
        0i64.checked_add_unsigned(number(word)?)
    }
}
