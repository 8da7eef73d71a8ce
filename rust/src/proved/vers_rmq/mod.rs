//! Range minimum queries: the first position of a least item in any range of a list.

use crate::rattle::prelude::*;

pub mod laws;
pub mod rmq;
