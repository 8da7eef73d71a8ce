//! Lists of bits with a rank of three reads: the number of ones before each word is stored.

use crate::rattle::prelude::*;

mod build;
mod rank;

pub use rank::{BitAndRank, WordRank};
