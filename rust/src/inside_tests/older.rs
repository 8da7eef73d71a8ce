//! Tests of the methods that the oldest rustc lacks, and that a newer one doesn't call by their names.

use crate::rattle::older::{CastSigned, CastUnsigned, CeilingQuotient, InOrder};

#[test]
fn quotients_are_rounded_up() {
    for (number, divisor, quotient) in
        [(0, 64, 0), (1, 64, 1), (63, 64, 1), (64, 64, 1), (65, 64, 2), (u64::MAX, 2, 1 << 63)]
    {
        assert_eq!(CeilingQuotient::div_ceil(number, divisor), quotient);
        assert_eq!(CeilingQuotient::div_ceil(number as usize, divisor as usize), quotient as usize);
    }
}

#[test]
fn signs_are_the_highest_bit() {
    for (number, signed) in [(0, 0), (5, 5), (u64::MAX, -1), (1 << 63, i64::MIN)] {
        assert_eq!((CastSigned::cast_signed(number), CastUnsigned::cast_unsigned(signed)), (signed, number));
    }
}

#[test]
fn neighbours_are_in_order() {
    for (list, is_strict, is_ascending) in [
        (&[][..], true, true),
        (&[4], true, true),
        (&[4, 5, 9], true, true),
        (&[4, 5, 5], false, true),
        (&[5, 5, 4], false, false),
    ] {
        assert_eq!(InOrder::is_sorted_by(list, |one: &u64, next| one < next), is_strict);
        assert_eq!(InOrder::is_sorted_by(list, |one: &u64, next| one <= next), is_ascending);
    }
}
