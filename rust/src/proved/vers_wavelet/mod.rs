//! Lists of symbols with rank, select and order statistics.

use crate::rattle::prelude::*;

pub mod laws;
pub mod wavelet;
