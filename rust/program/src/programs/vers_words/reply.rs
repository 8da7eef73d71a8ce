//! The replies to lines.

use crate::rattle::prelude::*;

use crate::rattle::AllocError;
use crate::rattle::Allocator;

/// The reply to a line.
pub enum Reply<A: Allocator + Copy> {
    /// The line is not understood.
    BadLine,
    /// The current structure has no such query.
    WrongStructure,
    /// The arguments are well formed, but outside the limits of the line.
    Refused,
    /// A number.
    Number(u64),
    /// A signed number.
    Signed(i64),
    /// There is no such number.
    Absent,
    /// Any number of numbers.
    Numbers(Vec<u64, A>),
    /// A text.
    Text(Vec<u8, A>),
}

impl<A: Allocator + Copy> Reply<A> {
    /// Appends the text of the reply. On error a part of it may have been appended.
    pub fn append_to(self, line: &mut Vec<u8, A>) -> Result<(), AllocError> {
        match self {
            Reply::BadLine => line.extend_from_slice(b"bad line"),
            Reply::WrongStructure => line.extend_from_slice(b"wrong structure"),
            Reply::Refused => line.extend_from_slice(b"refused"),
            Reply::Number(n) => append_number(n, line),
            Reply::Signed(n) => append_signed_number(n, line),
            Reply::Absent => line.extend_from_slice(b"none"),
            Reply::Numbers(numbers) => append_numbers(numbers.as_slice(), line),
            Reply::Text(text) => line.extend_from_slice(text.as_slice()),
        }
    }
}

// The greatest number of digits of a number.
const MAX_DIGITS: usize = 20;

/// Appends a number in decimal. On error nothing is appended.
pub fn append_number<A: Allocator>(number: u64, line: &mut Vec<u8, A>) -> Result<(), AllocError> {
    let mut digits = [0u8; MAX_DIGITS];
    let mut start = MAX_DIGITS;
    let mut rest = number;
    while rest >= 10 {
        start -= 1;
        digits[start] = b'0' + (rest % 10) as u8;
        rest /= 10;
    }
    start -= 1;
    digits[start] = b'0' + rest as u8;
    line.extend_from_slice(&digits[start..])
}

// Appends a number in decimal, with `-` before it if it is negative. On error a part may have been appended.
fn append_signed_number<A: Allocator>(number: i64, line: &mut Vec<u8, A>) -> Result<(), AllocError> {
    if number < 0 {
        line.push(b'-')?;
    }
    append_number(number.unsigned_abs(), line)
}

// Appends numbers with one space between them. On error a part may have been appended.
fn append_numbers<A: Allocator>(numbers: &[u64], line: &mut Vec<u8, A>) -> Result<(), AllocError> {
    let Some((first, others)) = numbers.split_first() else {
        return Ok(());
    };
    append_number(*first, line)?;
    for number in others {
        line.push(b' ')?;
        append_number(*number, line)?;
    }
    Ok(())
}
