//! Laws of texts. Each function does nothing: its contract is the law, and its proof is checked with the crate.

use crate::rattle::prelude::*;

/// The suffix array is the only list of all positions in which each suffix precedes those that begin at later
/// entries.
pub fn suffixes_have_one_order() {}

/// The row of a symbol followed by a pattern is 1 for the empty suffix, plus the number of lesser symbols, plus
/// the occurrences of the symbol before suffixes that precede the pattern.
pub fn patterns_are_found_backwards() {}

/// Two texts with the same column, and the same row of the whole text, are the same.
pub fn columns_determine_texts() {}
