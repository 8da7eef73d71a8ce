//! Laws of parentheses. Each function does nothing: its contract is the law, and its proof is
//! checked with the crate.

use crate::rattle::prelude::*;

/// A forward search finds the first position after the given one at which the excess has risen by the given
/// amount.
pub fn forward_finds_first() {}

/// A backward search finds the last position before the given one at which the excess is higher by the given
/// amount.
pub fn backward_finds_last() {}

/// No list of parentheses represents two forests.
pub fn one_forest() {}

/// In the parentheses of a forest, `close` of a one is the other position of its pair.
pub fn close_finds_pair() {}

/// In the parentheses of a forest, `open` of a zero is the other position of its pair.
pub fn open_finds_pair() {}

/// In the parentheses of a forest, `open` of the zero that closes a one is that one.
pub fn open_undoes_close() {}

/// In the parentheses of a forest, `close` of the one that opens for a zero is that zero.
pub fn close_undoes_open() {}

/// In the parentheses of a forest, `enclose` of either position of a pair is the parent of its node.
pub fn enclose_finds_parent() {}

/// The forest of a balanced list has that list as its parentheses.
pub fn forest_writes_its_list() {}

/// Reading parentheses from the left decides whether they are balanced.
pub fn reading_decides_balance() {}

/// The tree over the blocks of a nonempty list has fewer than three nodes per block.
pub fn nodes_are_few() {}

/// The nodes of a forest in preorder open at the ones of its parentheses, in order.
pub fn preorder_opens_in_order() {}

/// The nodes of a forest in postorder close at the zeros of its parentheses, in order.
pub fn postorder_closes_in_order() {}

/// In balanced parentheses one `i` is a node: what `node_handle` returns below the `size`.
pub fn ones_are_nodes() {}

/// In balanced parentheses a node opens exactly at each position of a one.
pub fn node_iff_one() {}

/// A level of a forest consists of exactly the nodes of its depth.
pub fn level_iff_depth() {}

/// Element `i` of a level is a node of its depth, and the next one on the level is the element after it:
/// `level_leftmost` and `level_next` go along the level.
pub fn levels_go_on() {}

/// The previous node on a level is the element before it: `level_rightmost` and `level_prev` go back along the
/// level.
pub fn levels_go_back() {}

/// No level has more elements than the forest has nodes.
pub fn levels_are_parts() {}

/// The bound of each counted function, and of each step of a walk, is at most one bound, `tree_reads`.
pub fn calls_are_within_one_bound() {}

/// Whatever adds at most `tree_reads` begins at most four blocks, and reads at most eight nodes per level and,
/// as data words, four times the bits of a block plus 32.
pub fn calls_read_few() {}

/// A search begins at most two blocks, and reads at most four nodes per level and, as data words, twice the
/// bits of a block plus four.
pub fn searches_read_few() {}
