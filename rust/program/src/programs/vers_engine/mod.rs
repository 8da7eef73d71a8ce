//! The engine of a program that answers lines: it reads them, has them answered, and writes the answers.
//!
//! The caller supplies the answerer: any value that implements `Answerer`, or `Replier`, which replies to the
//! words of a line.

use crate::rattle::prelude::*;

mod answerer;
mod engine;
mod replier;

pub use answerer::Answerer;
pub use engine::{RunError, answer_lines, fault_line};
pub use replier::Replier;
