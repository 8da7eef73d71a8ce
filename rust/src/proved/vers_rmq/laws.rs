//! Laws of range minima. Each function does nothing: its contract is the law, and its proof is
//! checked with the crate.

use crate::rattle::prelude::*;

/// A range has one first least position, so both types return the same position.
pub fn one_first_least() {}

/// The least position of a range is the first position of its least item: no item of the range is below the one
/// there, and those before it are above.
pub fn least_position_is_first() {}
