//! Laws over the definitions, true of every tree. Each function does nothing: its contract is the law, and its
//! proof is checked with the crate.

use crate::rattle::prelude::*;

/// No symbol of a tree is deeper than its deepest leaf.
pub fn no_depth_exceeds_height() {}
