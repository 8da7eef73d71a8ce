//! Range minimum queries.

use crate::rattle::prelude::*;
pub mod binary_rmq;
mod bounds;
pub mod fast_rmq;
mod gather;
mod least;
