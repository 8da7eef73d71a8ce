//! Laws of lists of symbols. Each function does nothing: its contract is the law, and its proof is
//! checked with the crate.

use crate::rattle::prelude::*;

/// Sorted elements ascend.
pub fn sorted_elements_ascend() {}

/// Sorting keeps each element as often as it occurs.
pub fn sorting_keeps_elements() {}

/// The `i`-th smallest element is the one that at most `i` elements are below and more than `i` are at most: no
/// other number satisfies this.
pub fn kth_by_size_is_kth() {}

/// The `i`-th smallest element is the item at position `i` in ascending order.
pub fn kth_by_size_is_item() {}

/// The greatest element up to a number is the predecessor: an element that is at most the number, and no such
/// element is above it.
pub fn greatest_up_to_is_predecessor() {}

/// There is a greatest element up to a number exactly if some element is at most the number.
pub fn some_elements_are_up_to() {}

/// The least element from a number on is the successor: an element that is at least the number, and no such element
/// is below it.
pub fn least_from_is_successor() {}

/// There is a least element from a number on exactly if some element is at least the number.
pub fn some_elements_are_from() {}

/// A range's `i`-th smallest element is the one that at most `i` of its elements are below and more than `i` are
/// at most. It exists if the range ends within the list and has more than `i` positions.
pub fn ranges_have_elements() {}

/// A range's greatest element up to a number is the predecessor among its elements. It exists if the range is
/// within the list and some of its elements are at most the number.
pub fn ranges_have_predecessors() {}

/// A range's least element from a number on is the successor among its elements. It exists if the range is within
/// the list and some of its elements are at least the number.
pub fn ranges_have_successors() {}

/// The elements of a range that ends within the list are those at its positions.
pub fn ranges_inside_stay() {}

/// Symbols of at most 64 bits fit in a word.
pub fn narrow_symbols_are_words() {}

/// Symbols of more than 64 bits don't fit in a word.
pub fn wide_symbols_are_no_words() {}

/// A list has only one `i`-th smallest element, so a quantile is one number.
pub fn one_element_of_a_number() {}

/// The quantiles from the first to the last are the elements in ascending order, duplicates included.
pub fn quantiles_list_elements_by_size() {}

/// Numbers of at most `k` digits are their own low digits if `k` isn't 0.
pub fn small_numbers_stay() {}

/// A list of symbols has a level for each digit, and each level has a bit for each symbol.
pub fn levels_are_even() {}

/// Any lists of bits of one length are the levels of a list of symbols.
pub fn every_levels_are_some() {}

/// Two lists of as many symbols are equal if they have the same levels.
pub fn levels_determine_symbols() {}

/// A symbol occurs in a range as often as it is among the range's elements.
pub fn occurrences_are_counted() {}
