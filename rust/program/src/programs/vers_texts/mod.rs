//! A line program over texts as a library: `run_from` reads lines and writes the answer of each.
//!
//! A line is a load line or a query line. The load line, such as `text 2 2 1 2 1 2`, replaces the current text,
//! and a query line, such as `count 2 1`, queries it. The engine `vers_engine` reads the lines and writes the
//! answers; this crate replies to them. The text before the first line, if there is one, is that of a `Store`.

use crate::rattle::prelude::*;

mod fasta;
mod name;
mod program;
mod queries;
mod sites;
mod store;

pub use fasta::{FastaError, fasta_text};
pub use program::run_from;
pub use store::Store;
pub use crate::programs::vers_engine::{RunError, fault_line};
pub use crate::programs::vers_io::{Device, Sink, Source};
