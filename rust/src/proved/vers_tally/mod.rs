//! Counters of the reads of a query, and vectors whose entries are read only with such a counter.

use crate::rattle::prelude::*;

pub mod ends;
pub mod laws;
pub mod made_ends;
pub mod tally;
