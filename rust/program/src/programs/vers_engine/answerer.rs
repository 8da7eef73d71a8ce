//! Answering lines.

use crate::rattle::prelude::*;

use crate::rattle::AllocError;
use crate::rattle::Allocator;

/// A type that answers lines, one after another. The answer of a line, and the answerer afterwards, depend only
/// on the line and the answerer before.
pub trait Answerer<A: Allocator> {
    /// Appends the answer of a line, with its end. Errors: `AllocError` if the allocator refuses a request; the
    /// answers are then unchanged, the state of `self` is unspecified, and the run ends.
    fn answer(&mut self, line: &[u8], answers: &mut Vec<u8, A>) -> Result<(), AllocError>;
}
