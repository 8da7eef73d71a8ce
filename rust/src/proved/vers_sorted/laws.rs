//! Laws of ascending lists. Each function does nothing: its contract is the law, and its proof is
//! checked with the crate.

use crate::rattle::prelude::*;

/// At most all elements are below a number.
pub fn below_is_at_most_all() {}

/// No fewer elements are below a greater number.
pub fn below_rises() {}

/// The elements of an ascending list before position `below elements v` are below `v`.
pub fn first_elements_are_below() {}

/// The elements of an ascending list from position `below elements v` on are at least `v`.
pub fn other_elements_are_not_below() {}

/// The least element that is at least `v` is at position `below elements v`. There is none if the list has no
/// such position.
pub fn least_not_below_is_next() {}

/// The greatest element that is at most `v` is the last one below `v + 1`, if there is one.
pub fn greatest_not_above_is_last() {}

/// In a sorted list, `greatest_not_above` is an element, not above `v`, and the greatest such element.
pub fn greatest_not_above_is_greatest() {}

/// In a sorted list, `least_not_below` is an element, not below `v`, and the least such element.
pub fn least_not_below_is_least() {}

/// If no element is below `v + 1`, none is at most `v`.
pub fn none_below_none_not_above() {}

/// `2 ^ clog n` is the least power of two that is at least `n`.
pub fn clog_is_least() {}

/// The high parts of `n` elements have at most `2 + n + p` bits, where `p` is the least power of two that is at
/// least `n` and at least 2.
pub fn high_parts_are_few() {}

/// The parts of an ascending list determine its elements.
pub fn parts_decode_to_list() {}

/// Two ascending lists with the same ends and parts are equal.
pub fn parts_determine_list() {}
