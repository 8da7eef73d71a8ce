//! The arguments of a line, which are the words after its first one. Each function returns `None` if they are
//! malformed.

use crate::rattle::prelude::*;

use crate::programs::vers_words::text::{number, signed_number, split_first_word};
use crate::rattle::AllocError;
use crate::rattle::Allocator;

/// Returns the arguments of a line that takes none, or `None` if there is one.
pub fn no_arguments(arguments: &[u8]) -> Option<()> {
    match split_first_word(arguments) {
        None => Some(()),
        Some(_) => None,
    }
}

/// Returns the argument of a line that takes one number. `None` if the words are not one number below 2^64.
pub fn one_number(arguments: &[u8]) -> Option<u64> {
    let (word, others) = split_first_word(arguments)?;
    no_arguments(others)?;
    number(word)
}

/// Returns the arguments of a line that takes two numbers. `None` if the words are not two numbers below 2^64.
pub fn two_numbers(arguments: &[u8]) -> Option<(u64, u64)> {
    let (first, others) = split_first_word(arguments)?;
    let (second, more) = split_first_word(others)?;
    no_arguments(more)?;
    Some((number(first)?, number(second)?))
}

/// Returns the arguments of a line that takes three numbers. `None` if the words are not three numbers below
/// 2^64.
pub fn three_numbers(arguments: &[u8]) -> Option<(u64, u64, u64)> {
    let (first, others) = split_first_word(arguments)?;
    let (second, third) = two_numbers(others)?;
    Some((number(first)?, second, third))
}

/// Returns the arguments of a line that takes a number and a signed number. `None` if the words are not a
/// number below 2^64 and one from -2^63 on, below 2^63.
pub fn number_and_signed(arguments: &[u8]) -> Option<(u64, i64)> {
    let (first, others) = split_first_word(arguments)?;
    let (second, more) = split_first_word(others)?;
    no_arguments(more)?;
    Some((number(first)?, signed_number(second)?))
}

/// Returns the arguments of a line that takes any number of numbers. `None` if a word is no number below 2^64.
/// Errors: `AllocError` if the allocator refuses a request.
pub fn all_numbers<A: Allocator + Copy>(
    alloc: A,
    arguments: &[u8],
) -> Result<Option<Vec<u64, A>>, AllocError> {
    let Some(count) = count_numbers(arguments) else {
        return Ok(None);
    };
    // Allocates exactly the memory of all numbers, from the start.
    let mut numbers = Vec::with_capacity(alloc, count)?;
    let mut rest = arguments;
    while let Some((word, others)) = split_first_word(rest) {
        let Some(value) = number(word) else {
            return Ok(None);
        };
        numbers.push(value)?;
        rest = others;
    }
    Ok(Some(numbers))
}

/// Returns the number of numbers in a line that takes any number of them. `None` if a word is no number below
/// 2^64.
pub fn count_numbers(arguments: &[u8]) -> Option<usize> {
    let mut count: usize = 0;
    let mut rest = arguments;
    while let Some((word, others)) = split_first_word(rest) {
        if number(word).is_none() {
            return None;
        }
        count += 1;
        rest = others;
    }
    Some(count)
}

/// Returns the argument of a line that takes bits: one word of the digits 0 and 1, or no word for the empty
/// list. `None` if the words are others.
pub fn bit_digits(arguments: &[u8]) -> Option<&[u8]> {
    let Some((word, others)) = split_first_word(arguments) else {
        return Some(b"");
    };
    no_arguments(others)?;
    if are_bit_digits(word) {
        Some(word)
    } else {
        None
    }
}

fn are_bit_digits(word: &[u8]) -> bool {
    word.iter().all(|byte| *byte == b'0' || *byte == b'1')
}
