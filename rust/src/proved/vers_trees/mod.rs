//! Ordered trees as lists of parentheses: excess, searches for a position where it rises, balance.

use crate::rattle::prelude::*;

pub mod laws;
pub mod trees;
