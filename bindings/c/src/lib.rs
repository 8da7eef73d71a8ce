//! The library of vers.h for processors that Rattle doesn't compile for, and for those who have cargo alone.
//!
//! All that it answers is of the proved sources, as `tools/plain_rust.py` writes them in plain Rust: the structures are
//! those of `../../rust`, below the facade, so that each request for memory can be refused, and `programs` has the
//! exports of `crates/vers_c`. Written by hand: `exports` has their interface of pointers, `python` that of CPython,
//! `shared` an owner of a structure, and `heap` the allocator.
#![deny(unsafe_op_in_unsafe_fn, clippy::undocumented_unsafe_blocks)]

#[cfg(not(target_pointer_width = "64"))]
compile_error!("the proofs are of positions of 64 bits");

mod exports;
mod heap;
mod python;
mod shared;

#[global_allocator]
static HEAP: heap::Heap = heap::Heap;

// (with `#[rustfmt::skip]` alone, the compiler takes the module for that of a macro, and refuses the path of its macro)
#[cfg_attr(rustfmt, rustfmt::skip)]
#[allow(dead_code, clippy::all)]
mod programs;

#[path = "../../../rust/src/proved/mod.rs"]
#[rustfmt::skip]
#[allow(dead_code, clippy::all)]
mod proved;

#[path = "../../../rust/src/rattle/mod.rs"]
#[allow(dead_code, clippy::all)]
mod rattle;
