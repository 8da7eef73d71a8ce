//! Lists of documents, each with a cost: membership, rank, the cheapest document of a range, and the documents
//! common to two lists.

use crate::rattle::prelude::*;

mod fault;
mod postings;
mod queries;

pub use fault::PostingsError;
pub use postings::Postings;
