//! Ascending lists of numbers in high and low parts (Elias-Fano), and sparse lists of bits based on them.

use crate::rattle::prelude::*;

pub mod elias_fano;
pub mod laws;
pub mod order;
pub mod sparse;
