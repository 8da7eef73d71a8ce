//! Laws of patterns. The function does nothing: its contract is the law, and its proof is checked with the crate.

use crate::rattle::prelude::*;

/// The pattern that `append_pattern` writes of symbols is read as these symbols.
pub fn patterns_read_back() {}
