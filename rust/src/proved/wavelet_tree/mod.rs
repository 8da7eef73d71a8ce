//! Lists of symbols as weight-balanced wavelet trees: a rank of a symbol takes as many steps as the symbol's code has
//! bits, so those of frequent symbols are short.

use crate::rattle::prelude::*;

mod batch;
mod fault;
mod grow;
pub mod laws;
mod loads;
mod node;
mod part;
mod read;
mod rebuild;
mod starts;
mod tree;
mod walk;

pub use batch::RangeQuery;
pub use fault::PartsError;
pub use tree::WaveletTree;
pub use walk::SortedPosition;
