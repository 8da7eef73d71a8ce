//! Unsigned integers as symbols.

use crate::rattle::prelude::*;

/// An unsigned integer: `u8`, `u16`, `u32` or `u64`.
pub trait Integer: Copy {
    /// Returns the same number. Precondition: it has no more bits than the type.
    fn of(number: u64) -> Self;

    /// Returns the number.
    fn number(&self) -> usize;

    /// Returns the number of numbers of a slice, at most that of the bytes that a slice can have.
    fn len_of(numbers: &[Self]) -> usize;
}

impl Integer for u8 {
    #[inline(always)]
    fn of(number: u64) -> Self {
        number as u8
    }

    #[inline(always)]
    fn number(&self) -> usize {
        *self as usize
    }

    fn len_of(numbers: &[Self]) -> usize {
        numbers.len()
    }
}

impl Integer for u16 {
    #[inline(always)]
    fn of(number: u64) -> Self {
        number as u16
    }

    #[inline(always)]
    fn number(&self) -> usize {
        *self as usize
    }

    fn len_of(numbers: &[Self]) -> usize {
        numbers.len()
    }
}

impl Integer for u32 {
    #[inline(always)]
    fn of(number: u64) -> Self {
        number as u32
    }

    #[inline(always)]
    fn number(&self) -> usize {
        *self as usize
    }

    fn len_of(numbers: &[Self]) -> usize {
        numbers.len()
    }
}

impl Integer for u64 {
    #[inline(always)]
    fn of(number: u64) -> Self {
        number
    }

    #[inline(always)]
    fn number(&self) -> usize {
        *self as usize
    }

    fn len_of(numbers: &[Self]) -> usize {
        numbers.len()
    }
}
