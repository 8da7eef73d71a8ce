//! Lists of bits in limbs of 64, and the definitions that all contracts of the library use.

use crate::rattle::prelude::*;

pub mod bit_vec;
pub mod laws;
pub mod list_ends;
pub mod walk;
