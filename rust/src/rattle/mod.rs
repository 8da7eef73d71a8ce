//! What Rattle's standard library has and Rust's lacks, as far as the proved sources use it.
//!
//! All of it is safe Rust, except one line of `instructions`, on processors with BMI2, and two of the feature `unchecked`.
//! The proofs are over the contracts that Rattle's library gives these names, so each body here is to do what the contract
//! of that name says.

pub mod boxed;
#[cfg(any(mutants, programs))]
pub mod fs;
#[cfg(any(test, programs))]
pub mod host;
pub mod instructions;
pub mod io;
pub mod lanes;
#[cfg(mutants)]
pub mod mutants;
pub mod older;
pub mod owners;
#[cfg(test)]
pub mod reads;
#[cfg(test)]
pub mod refusing;
#[cfg(test)]
pub mod testing;
mod vec;

pub use vec::Vec;

/// The names that every proved file sees. Not each crate uses them all.
#[allow(unused_imports)]
pub mod prelude {
    pub use super::boxed::Box;
    #[cfg(any(test, programs))]
    pub use super::host::HostRuntime;
    #[cfg(any(mutants, programs))]
    pub use super::io::ReadAll;
    pub use super::older::{Arrays, AsArrays, CastSigned, CastUnsigned, CeilingQuotient, InOrder};
    pub use super::{Clone, Vec};
}

/// The allocator refused.
#[derive(Clone, Copy, PartialEq, Eq, Debug)]
pub struct AllocError;

impl core::fmt::Display for AllocError {
    fn fmt(&self, f: &mut core::fmt::Formatter<'_>) -> core::fmt::Result {
        f.write_str("memory allocation failed")
    }
}

impl std::error::Error for AllocError {}

/// An item that found no memory.
#[derive(Clone, Copy, Debug)]
pub struct AllocFailed<T>(pub T);

impl<T> From<AllocFailed<T>> for AllocError {
    fn from(_: AllocFailed<T>) -> AllocError {
        AllocError
    }
}

/// Where memory comes from: the heap of the program, in plain Rust. An allocator sees each request before it is made, and may
/// refuse it.
pub trait Allocator {
    /// Requests a number of bytes.
    ///
    /// # Errors
    /// If it refuses them.
    #[inline(always)]
    fn request(&self, _bytes: usize) -> Result<(), AllocError> {
        Ok(())
    }

    /// Releases a number of bytes, which were requested.
    #[inline(always)]
    fn release(&self, _bytes: usize) {}
}

/// The heap of the program.
#[derive(Clone, Copy, PartialEq, Eq, Debug, Default)]
pub struct Global;

impl Allocator for Global {
    #[cfg(mutants)]
    fn request(&self, _bytes: usize) -> Result<(), AllocError> {
        mutants::is_granted().then_some(()).ok_or(AllocError)
    }
}

impl<A: Allocator> Allocator for &A {
    #[inline(always)]
    fn request(&self, bytes: usize) -> Result<(), AllocError> {
        A::request(self, bytes)
    }

    #[inline(always)]
    fn release(&self, bytes: usize) {
        A::release(self, bytes);
    }
}

/// A second value, which may find no memory.
pub trait Clone: Sized {
    /// Makes the second value.
    fn clone(&self) -> Result<Self, AllocError>;
}

/// Returns a text that found memory.
#[cfg(any(test, programs))]
pub fn granted(text: String) -> Result<String, AllocError> {
    Ok(text)
}
