#![doc = include_str!("../README.md")]
#![cfg_attr(not(any(feature = "unchecked", target_feature = "bmi2")), forbid(unsafe_code))]
#![warn(missing_docs, missing_debug_implementations)]

#[cfg(not(target_pointer_width = "64"))]
compile_error!("vers-vecs needs positions of 64 bits: its proofs are of such positions");

pub use bit_vec::fast_rs_vec::RsVec;
pub use bit_vec::sparse::SparseRSVec;
pub use bit_vec::BitVec;
pub use elias_fano::EliasFanoVec;
pub use rmq::binary_rmq::BinaryRmq;
pub use rmq::fast_rmq::FastRmq;
pub use trees::bp::{BpBuilder, BpTree};
pub use trees::{IsAncestor, LevelTree, SubtreeSize, Tree, TreeBuilder};
pub use wavelet::WaveletMatrix;

pub mod bit_vec;
mod contracts;
#[doc = include_str!("notation.md")]
#[doc = include_str!("definitions.md")]
pub mod definitions {}
pub mod elias_fano;
pub mod error;
#[cfg(test)]
mod inside_tests;
pub mod inverted;
mod items;
pub mod postings;
#[cfg(all(test, mutants))]
#[rustfmt::skip]
#[path = "../target/mutants/program_tests/mod.rs"]
mod program_tests;
#[cfg(all(test, mutants))]
#[rustfmt::skip]
#[path = "../target/mutants/programs/mod.rs"]
mod programs;
#[cfg(all(test, mutants))]
use rattle::owners as shared;
#[rustfmt::skip]
#[allow(missing_docs, missing_debug_implementations, dead_code, unstable_name_collisions, clippy::all)]
#[cfg_attr(mutants, path = "../target/mutants/proved/mod.rs")]
mod proved;
#[cfg(all(test, any(mutants, proved_tests)))]
#[rustfmt::skip]
#[allow(missing_docs, missing_debug_implementations, dead_code, unstable_name_collisions, clippy::all)]
#[path = "../target/proved_tests/mod.rs"]
mod proved_tests;
#[allow(dead_code, missing_debug_implementations)]
mod rattle;
pub mod reads;
pub mod rmq;
pub mod saved;
#[cfg(feature = "serde")]
mod serde_forms;
pub mod sets;
pub mod text;
pub mod trees;
pub mod wavelet;
pub mod wavelet_tree;
pub mod word_rank;
