//! The load line of a list of values.

use crate::rattle::prelude::*;

use crate::programs::vers_cli::name::Load;
use crate::programs::catalogue::structure::Structure;
use crate::rattle::AllocError;
use crate::rattle::Allocator;
use crate::proved::vers_rmq::rmq::fast_rmq::{FastRmq, MAX_LEN};
use crate::programs::vers_words::arguments::{all_numbers, count_numbers};
use crate::programs::vers_words::loading::Loading;

/// Returns true if the load line `values n ..` is accepted.
pub fn is_accepted(arguments: &[u8]) -> bool {
    match count_numbers(arguments) {
        None => false,
        Some(count) => count <= MAX_LEN,
    }
}

/// Returns the result of the load line `values n ..`. Errors: `AllocError` if the allocator refuses a request.
pub fn load<'a, A: Allocator + Copy>(
    alloc: &'a A,
    arguments: &[u8],
) -> Result<Loading<Structure<'a, A>>, AllocError> {
    let Some(numbers) = all_numbers(*alloc, arguments)? else {
        return Ok(Loading::Malformed);
    };
    if numbers.len() > MAX_LEN {
        return Ok(Loading::Inadmissible);
    }
    match FastRmq::from_vec(numbers) {
        Ok(values) => Ok(Loading::Accepted(Structure::Fast(values))),
        Err(error) => Err(error),
    }
}
