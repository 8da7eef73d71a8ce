//! One owner of any structure: what it owns, its kind and its saved form.

use crate::rattle::prelude::*;

use crate::programs::catalogue::answer::Answer;
use crate::programs::catalogue::forms::{bytes_of, write_form};
use crate::programs::catalogue::query::Query;
use crate::programs::catalogue::queryable::answer_once;
use crate::proved::inverted::InvertedIndex;
use crate::proved::postings::Postings;
use crate::rattle::Allocator;
use std::io::Write;
use crate::proved::text_index::TextIndex;
use crate::proved::vers_bits::bit_vec::BitVec;
use crate::proved::vers_rank::fast_rs_vec::RsVec;
use crate::proved::vers_rmq::rmq::binary_rmq::BinaryRmq;
use crate::proved::vers_rmq::rmq::fast_rmq::FastRmq;
use crate::proved::vers_saved::fault::SaveError;
use crate::proved::vers_saved::saved::saved_size;
use crate::proved::vers_sorted::elias_fano::EliasFanoVec;
use crate::proved::vers_sorted::sparse::SparseRSVec;
use crate::proved::vers_trees::trees::bp::BpTree;
use crate::proved::vers_wavelet::wavelet::WaveletMatrix;

/// A structure.
pub enum Structure<'a, A: Allocator + Copy> {
    /// Bits that can change.
    Growing(BitVec<A>),
    /// Bits with rank and select.
    Bits(RsVec<A>),
    /// Bits with few ones.
    Sparse(SparseRSVec<A>),
    /// An ascending list.
    Sorted(EliasFanoVec<A>),
    /// A list of symbols.
    Symbols(WaveletMatrix<A>),
    /// Parentheses. They are boxed, since the lookup tables for bytes make a tree large, and each move copies it. They
    /// borrow the allocator: calls of a tree require that its size is below 2^63, and a reference has 8 bytes.
    Tree(Box<BpTree<512, &'a A>, &'a A>),
    /// Values, with range minima from blocks.
    Fast(FastRmq<A>),
    /// Values, with range minima from a sparse table.
    Binary(BinaryRmq<A>),
    /// Documents with costs.
    Postings(Postings<A>),
    /// A list of documents for each term.
    Inverted(InvertedIndex<A>),
    /// A text index.
    Text(TextIndex<A>),
    /// Plain numbers, the result of some calls.
    Numbers(Vec<u64, A>),
}

/// Evaluates an expression with the list that a structure owns, which has the given name there. Plain numbers can have
/// an expression of their own.
#[macro_export]
macro_rules! with_list {
    ($structure:expr, $list:ident => $done:expr) => {
        with_list!($structure, $list => $done, $list => $done)
    };
    ($structure:expr, $list:ident => $done:expr, $numbers:pat => $of_numbers:expr) => {
        match $structure {
            $crate::programs::catalogue::structure::Structure::Growing($list) => $done,
            $crate::programs::catalogue::structure::Structure::Bits($list) => $done,
            $crate::programs::catalogue::structure::Structure::Sparse($list) => $done,
            $crate::programs::catalogue::structure::Structure::Sorted($list) => $done,
            $crate::programs::catalogue::structure::Structure::Symbols($list) => $done,
            $crate::programs::catalogue::structure::Structure::Tree(tree) => {
                let $list = &**tree;
                $done
            }
            $crate::programs::catalogue::structure::Structure::Fast($list) => $done,
            $crate::programs::catalogue::structure::Structure::Binary($list) => $done,
            $crate::programs::catalogue::structure::Structure::Postings($list) => $done,
            $crate::programs::catalogue::structure::Structure::Inverted($list) => $done,
            $crate::programs::catalogue::structure::Structure::Text($list) => $done,
            $crate::programs::catalogue::structure::Structure::Numbers($numbers) => $of_numbers,
        }
    };
}

impl<A: Allocator + Copy> Structure<'_, A> {
    /// Returns the number of items.
    pub fn len(&self) -> u64 {
        with_list!(self, list => list.len() as u64)
    }

    /// Returns the answer to a query with three numbers.
    pub fn answer(&self, query: Query, a: u64, b: u64, c: u64) -> Answer {
        with_list!(self, list => answer_once(list, query, a, b, c))
    }

    /// Returns the kind, or `None` if such structures have no saved form.
    pub fn kind(&self) -> Option<Kind> {
        match self {
            Structure::Growing(_) => Some(Kind::Growing),
            Structure::Bits(_) => Some(Kind::Bits),
            Structure::Sparse(_) => Some(Kind::Sparse),
            Structure::Sorted(_) => Some(Kind::Sorted),
            Structure::Symbols(_) => Some(Kind::Symbols),
            Structure::Tree(_) => Some(Kind::Tree),
            Structure::Fast(_) => Some(Kind::Fast),
            Structure::Binary(_) => Some(Kind::Binary),
            Structure::Postings(_) => Some(Kind::Postings),
            Structure::Inverted(_) => Some(Kind::Inverted),
            Structure::Text(_) => Some(Kind::Text),
            Structure::Numbers(_) => None,
        }
    }

    /// Returns the number of bits of an item in the saved form, or of a block of a tree.
    pub fn item_width(&self) -> u64 {
        match self {
            Structure::Growing(_) | Structure::Bits(_) => 1,
            Structure::Symbols(symbols) => symbols.bits_per_element() as u64,
            Structure::Tree(_) => 512,
            Structure::Postings(_) => 128,
            Structure::Text(text) => u64::from(text.bits_per_symbol()),
            Structure::Sparse(_)
            | Structure::Sorted(_)
            | Structure::Fast(_)
            | Structure::Binary(_)
            | Structure::Inverted(_)
            | Structure::Numbers(_) => 64,
        }
    }

    /// Returns the number of bytes of the saved form, or `None` if there is none.
    pub fn saved_size(&self) -> Option<usize> {
        with_list!(self, list => saved_size(list), _ => None)
    }

    /// Returns the saved form.
    ///
    /// # Errors
    ///
    /// `NoForm` if there is none; `Memory` if the allocator refuses a request.
    pub fn to_bytes<B: Allocator>(&self, alloc: B) -> Result<Vec<u8, B>, SaveError> {
        with_list!(self, list => bytes_of(alloc, list), _ => Err(SaveError::NoForm))
    }

    /// Writes the saved form, in blocks of 64 KiB.
    ///
    /// # Errors
    ///
    /// `NoForm` if there is none, and `Memory` if the allocator refuses a request: nothing was written. `Write` if
    /// the writer fails: a prefix of the form was written.
    pub fn save<B: Allocator, W: Write>(&self, alloc: B, writer: &mut W) -> Result<(), SaveError> {
        with_list!(self, list => write_form(alloc, list, writer), _ => Err(SaveError::NoForm))
    }
}

/// The structure as which a saved form is loaded.
#[derive(Clone, Copy)]
pub enum Kind {
    /// Bits that can change.
    Growing,
    /// Bits with rank and select.
    Bits,
    /// An ascending list.
    Sorted,
    /// A list of symbols.
    Symbols,
    /// Bits with few ones.
    Sparse,
    /// Values, with range minima from blocks.
    Fast,
    /// Parentheses.
    Tree,
    /// Documents with costs.
    Postings,
    /// Values, with range minima from a sparse table.
    Binary,
    /// A text index.
    Text,
    /// A list of documents for each term.
    Inverted,
}

/// The kind of each code, which is its index here. From 1 to 7, and from 9 on, the codes are the numbers of saved
/// forms; the two types that share the form of another one have 0 and 8.
pub const KINDS: [Kind; 11] = [
    Kind::Growing,
    Kind::Bits,
    Kind::Sorted,
    Kind::Symbols,
    Kind::Sparse,
    Kind::Fast,
    Kind::Tree,
    Kind::Postings,
    Kind::Binary,
    Kind::Text,
    Kind::Inverted,
];

impl Kind {
    // Returns the kind at a position of a table.
    fn at(table: &[Kind], position: usize) -> Option<Kind> {
        table.get(position).copied()
    }

    /// Returns the kind of a code, or `None` if there is none.
    pub fn of(code: usize) -> Option<Kind> {
        Kind::at(&KINDS, code)
    }

    /// Returns the name: the first word of its load line, if the line program has one.
    pub fn name(self) -> &'static str {
        match self {
            Kind::Growing => "growing",
            Kind::Bits => "bits",
            Kind::Sorted => "sorted",
            Kind::Symbols => "symbols",
            Kind::Sparse => "sparse",
            Kind::Fast => "values",
            Kind::Tree => "tree",
            Kind::Postings => "postings",
            Kind::Binary => "binary",
            Kind::Text => "text",
            Kind::Inverted => "inverted",
        }
    }
}
