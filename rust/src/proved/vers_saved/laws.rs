//! Laws of saved forms. Each function does nothing: its contract is the law, and its proof is
//! checked with the crate.

use crate::rattle::prelude::*;

/// If two lists of words differ in exactly one word, their sums differ.
pub fn sum_detects_one_word() {}

/// The form of each list that may be saved has no error, and no other list has that form.
pub fn forms_go_round() {}
