//! The line program as a library: `run` reads lines and writes the answer of each.
//!
//! A line is a load line or a query line. A load line, such as `bits 0110` or `sorted 4 4 9`, replaces the
//! current structure, and a query line, such as `rank1 3` or `successor 5`, queries it. The engine
//! `vers_engine` reads the lines and writes the answers; this crate answers them. `run_from` does the same with
//! a structure before the first line.

use crate::rattle::prelude::*;

mod bits;
mod documents;
mod held;
mod index;
mod lists;
mod load;
mod name;
mod program;
mod replies;
mod sorted;
mod sparse;
mod store;
mod symbols;
mod tree;
mod values;

pub use held::Held;
pub use program::{run, run_from};
pub use store::{Store, load_line};
pub use crate::programs::vers_engine::{RunError, fault_line};
pub use crate::programs::vers_io::{Device, Sink, Source};
