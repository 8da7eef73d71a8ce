//! The symbols of a load line that have more bits than its width.

use crate::rattle::prelude::*;

use crate::programs::vers_words::text::{number, split_first_word, without_return};

// The greatest number of bits of a symbol.
const WIDEST: u64 = 64;

/// Returns how many symbols of a load line `symbols K n ..` have more than K bits: the list has only their low
/// bits. 0 for another line, and for one that is not accepted.
pub fn symbols_cut(line: &[u8]) -> usize {
    let Some((word, arguments)) = split_first_word(without_return(line)) else {
        return 0;
    };
    if word == b"symbols".as_slice() {
        arguments_cut(arguments)
    } else {
        0
    }
}

// Returns how many of the numbers after the first are not below 2 to the power of the first.
fn arguments_cut(arguments: &[u8]) -> usize {
    let Some((word, numbers)) = split_first_word(arguments) else {
        return 0;
    };
    match number(word) {
        Some(width) if width <= WIDEST => numbers_cut(numbers, width).unwrap_or(0),
        _ => 0,
    }
}

// Returns how many numbers are not below 2 to the power of the width. `None` if a word is no number below 2^64.
fn numbers_cut(arguments: &[u8], width: u64) -> Option<usize> {
    let mut count: usize = 0;
    let mut rest = arguments;
    while let Some((word, others)) = split_first_word(rest) {
        let value = number(word)?;
        if width < WIDEST && value >> width != 0 {
            count += 1;
        }
        rest = others;
    }
    Some(count)
}
