//! Laws over the definitions, which hold for every list of bits. Each function does nothing: its contract is
//! the law, and its proof is checked with the crate.

use crate::rattle::prelude::*;

/// Equal lists feed the same input to a hasher, so they hash equally.
pub fn equal_lists_hash_equally() {}

/// After a split, the first list with the second appended is the original one.
pub fn split_lists_join() {}

/// The low `k` bits of a number are `k` bits.
pub fn low_bits_are_as_many() {}

/// The low `k` bits of a number make the number modulo `2 ^ k`.
pub fn low_bits_are_the_rest() {}

/// The digits of a number above its low `k` bits don't change these.
pub fn low_bits_leave_out_the_others() {}

/// The low `j + k` bits of a number are its low `j` bits, then the low `k` bits of the number divided by `2 ^ j`.
pub fn low_bits_go_on() {}

/// A list of bits is determined by its number and its length.
pub fn bits_follow_from_number() {}

/// The number of a list of bits is the sum of `2 ^ i` over the positions `i` of its ones.
pub fn number_is_sum_of_powers() {}

/// Element `e` of a packed list of 1 to 64 bits an item is item `e` modulo `2 ^ k`.
pub fn packed_elements_are_items() {}

/// Bit `p` of two lists combined bit by bit is the combination of both bits `p`.
pub fn zipped_bits_are_combined() {}

/// The mask by the or of limbs is the or of the bits.
pub fn mask_of_or_is_or() {}

/// The mask by the and of limbs is the and of the bits.
pub fn mask_of_and_is_and() {}

/// The mask by the xor of limbs is the xor of the bits.
pub fn mask_of_xor_is_xor() {}

/// Each position has a zero or a one: the counts of both add up to the number of positions, or to the length.
pub fn zeros_and_ones_add_up() {}

/// The position of one (or zero) `r` has that bit, and `r` of them precede it.
pub fn select_finds_number() {}

/// Selecting the rank of a position gives the first one (or zero) at or after the position, or the length.
pub fn select_of_count_is_next() {}

/// Ranks are monotone: more positions contain no fewer ones (or zeros).
pub fn counts_grow() {}

/// The rank of a later position is the rank of an earlier one plus the count between them.
pub fn counts_of_spans_add_up() {}

/// A rank is at most the position, and at most the length.
pub fn counts_are_few() {}

/// Selecting past the last one (or zero) gives the length.
pub fn select_past_last_is_length() {}

/// The successor of a position is a one (or zero), and no position between them is. If there is no successor,
/// no later position is.
pub fn none_up_to_neighbour() {}

/// The predecessor of a position is a one (or zero), and no position between them is. If there is no
/// predecessor, no earlier position is.
pub fn none_down_to_neighbour() {}

/// Calls of `next`, `next_back`, `nth` and `nth_back` in any order pass each item of the list once: the items
/// passed from the front, those left, and those passed from the back make up the list.
pub fn both_ends_pass_each_item_once<T>() {}

/// An iterator that has ended stays ended, whatever is called.
pub fn ended_iterators_stay_ended<T>() {}

/// The trait's contract of `next` equals this library's contract of `nth(0)`.
pub fn next_is_nth_of_zero<T>() {}

/// The trait's contract of `next_back` equals this library's contract of `nth_back(0)`.
pub fn next_back_is_nth_back_of_zero<T>() {}
