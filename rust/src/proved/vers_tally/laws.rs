//! Laws of counting. Each function does nothing: its contract is the law, and its proof is
//! checked with the crate.

use crate::rattle::prelude::*;

/// Reading nothing adds nothing.
pub fn reading_nothing_adds_nothing() {}

/// Two sequences of reads, one after the other, add at most the sum of both bounds.
pub fn bounds_add() {}

/// A greater bound holds too.
pub fn greater_bounds_hold() {}

/// Half a number has one binary digit less.
pub fn halving_takes_a_digit() {}
