//! The names of lines.

use crate::rattle::prelude::*;

use Arguments::{NoNumber, OneNumber, ThreeNumbers, TwoNumbers, WithSigned};
use Line::{All, Common, Documents, Joined, Number, Walk};
use Listing::{BySize, Items, Postorder};
use Nodes::{Children, RevChildren, Subtree, SubtreePost};
use Written::{Plain, Required, Signed};
use crate::programs::catalogue::documents::Joint;
use crate::programs::catalogue::query::{Query, SymbolsQuery, TermQuery, TreeQuery};
use crate::programs::catalogue::structure::Structure;
use crate::rattle::Allocator;
use crate::proved::vers_trees::trees::bp::{LevelEnd, Measure, Relative};
use crate::programs::vers_words::names::named;

/// The first word of a load line.
#[derive(Clone, Copy)]
pub enum Load {
    Bits,
    Sorted,
    Sparse,
    Values,
    Tree,
    Symbols,
    Postings,
    Inverted,
}

/// The arguments of a query line.
#[derive(Clone, Copy)]
pub enum Arguments {
    NoNumber,
    OneNumber,
    TwoNumbers,
    ThreeNumbers,
    /// A number and a signed number.
    WithSigned,
}

/// How an answer is written.
#[derive(Clone, Copy)]
pub enum Written {
    /// A number, or `none`.
    Plain,
    /// A signed number.
    Signed,
    /// A number, or `refused` if there is none.
    Required,
}

/// A list of all items or nodes.
#[derive(Clone, Copy)]
pub enum Listing {
    /// The elements, the symbols, the positions of ones, or the nodes in preorder.
    Items,
    /// The symbols in ascending order.
    BySize,
    /// The nodes in postorder.
    Postorder,
}

/// The nodes of a walk from a node.
#[derive(Clone, Copy)]
pub enum Nodes {
    Children,
    RevChildren,
    Subtree,
    SubtreePost,
}

/// A query line.
#[derive(Clone, Copy)]
pub enum Line {
    /// A query of the catalogue, its arguments, and how its answer is written.
    Number(Query, Arguments, Written),
    /// A list of all items or nodes: no argument.
    All(Listing),
    /// The nodes of a walk: a node.
    Walk(Nodes),
    /// The documents that are among others: any number of documents.
    Common,
    /// The documents of a term: a term.
    Documents,
    /// Documents of two terms: two terms.
    Joined(Joint),
}

/// The load lines.
pub const LOADS: [(&[u8], Load); 8] = [
    (b"bits", Load::Bits),
    (b"sorted", Load::Sorted),
    (b"sparse", Load::Sparse),
    (b"values", Load::Values),
    (b"tree", Load::Tree),
    (b"symbols", Load::Symbols),
    (b"postings", Load::Postings),
    (b"inverted", Load::Inverted),
];

/// The query lines of a list of bits.
pub const BITS_LINES: [(&[u8], Line); 6] = [
    (b"len", Number(Query::Len, NoNumber, Plain)),
    (b"get", Number(Query::Get, OneNumber, Plain)),
    (b"rank0", Number(Query::Rank0, OneNumber, Plain)),
    (b"rank1", Number(Query::Rank1, OneNumber, Plain)),
    (b"select0", Number(Query::Select0, OneNumber, Plain)),
    (b"select1", Number(Query::Select1, OneNumber, Plain)),
];

/// The query lines of an ascending list.
pub const SORTED_LINES: [(&[u8], Line); 7] = [
    (b"len", Number(Query::Len, NoNumber, Plain)),
    (b"get", Number(Query::Get, OneNumber, Plain)),
    (b"rank", Number(Query::Rank, OneNumber, Plain)),
    (b"predecessor", Number(Query::Predecessor, OneNumber, Plain)),
    (b"successor", Number(Query::Successor, OneNumber, Plain)),
    (b"delta", Number(Query::Delta, OneNumber, Plain)),
    (b"iter", All(Items)),
];

/// The query lines of a sparse list of bits.
pub const SPARSE_LINES: [(&[u8], Line); 6] = [
    (b"len", Number(Query::Len, NoNumber, Plain)),
    (b"get", Number(Query::Get, OneNumber, Plain)),
    (b"rank0", Number(Query::Rank0, OneNumber, Plain)),
    (b"rank1", Number(Query::Rank1, OneNumber, Plain)),
    (b"select1", Number(Query::Select1, OneNumber, Plain)),
    (b"iter1", All(Items)),
];

/// The query lines of a list of values.
pub const VALUES_LINES: [(&[u8], Line); 2] = [
    (b"len", Number(Query::Len, NoNumber, Plain)),
    (b"range_min", Number(Query::RangeMin, TwoNumbers, Required)),
];

/// The query lines of a list of parentheses.
pub const TREE_LINES: [(&[u8], Line); 31] = [
    (
        b"size",
        Number(Query::Tree(TreeQuery::Size), NoNumber, Plain),
    ),
    (
        b"root",
        Number(Query::Tree(TreeQuery::Root), NoNumber, Plain),
    ),
    (
        b"is_balanced",
        Number(Query::Tree(TreeQuery::IsBalanced), NoNumber, Plain),
    ),
    (b"dfs_iter", All(Items)),
    (
        b"excess",
        Number(Query::Tree(TreeQuery::Excess), OneNumber, Signed),
    ),
    (
        b"close",
        Number(Query::Tree(TreeQuery::Close), OneNumber, Plain),
    ),
    (
        b"open",
        Number(Query::Tree(TreeQuery::Open), OneNumber, Plain),
    ),
    (
        b"enclose",
        Number(Query::Tree(TreeQuery::Enclose), OneNumber, Plain),
    ),
    (
        b"node_handle",
        Number(Query::Tree(TreeQuery::NodeHandle), OneNumber, Plain),
    ),
    (
        b"fwd_search",
        Number(Query::Tree(TreeQuery::FwdSearch), WithSigned, Plain),
    ),
    (
        b"bwd_search",
        Number(Query::Tree(TreeQuery::BwdSearch), WithSigned, Plain),
    ),
    (
        b"parent",
        Number(Query::Node(Relative::Parent), OneNumber, Plain),
    ),
    (
        b"first_child",
        Number(Query::Node(Relative::FirstChild), OneNumber, Plain),
    ),
    (
        b"last_child",
        Number(Query::Node(Relative::LastChild), OneNumber, Plain),
    ),
    (
        b"next_sibling",
        Number(Query::Node(Relative::NextSibling), OneNumber, Plain),
    ),
    (
        b"previous_sibling",
        Number(Query::Node(Relative::PreviousSibling), OneNumber, Plain),
    ),
    (
        b"level_next",
        Number(Query::Node(Relative::LevelNext), OneNumber, Plain),
    ),
    (
        b"level_prev",
        Number(Query::Node(Relative::LevelPrev), OneNumber, Plain),
    ),
    (
        b"node_index",
        Number(Query::Measure(Measure::NodeIndex), OneNumber, Plain),
    ),
    (
        b"is_leaf",
        Number(Query::Measure(Measure::IsLeaf), OneNumber, Plain),
    ),
    (
        b"depth",
        Number(Query::Measure(Measure::Depth), OneNumber, Plain),
    ),
    (
        b"subtree_size",
        Number(Query::Measure(Measure::SubtreeSize), OneNumber, Plain),
    ),
    (b"is_ancestor", Number(Query::IsAncestor, TwoNumbers, Plain)),
    (
        b"level_ancestor",
        Number(Query::LevelAncestor, TwoNumbers, Plain),
    ),
    (
        b"level_leftmost",
        Number(Query::Level(LevelEnd::Leftmost), OneNumber, Plain),
    ),
    (
        b"level_rightmost",
        Number(Query::Level(LevelEnd::Rightmost), OneNumber, Plain),
    ),
    (b"children", Walk(Children)),
    (b"rev_children", Walk(RevChildren)),
    (b"subtree_iter", Walk(Subtree)),
    (b"subtree_post_iter", Walk(SubtreePost)),
    (b"dfs_post_iter", All(Postorder)),
];

/// The query lines of a list of symbols.
pub const SYMBOLS_LINES: [(&[u8], Line); 14] = [
    (b"len", Number(Query::Len, NoNumber, Plain)),
    (b"iter_u64", All(Items)),
    (b"iter_sorted_u64", All(BySize)),
    (b"get_u64", Number(Query::Get, OneNumber, Plain)),
    (
        b"rank_u64",
        Number(Query::Symbols(SymbolsQuery::RankOf), TwoNumbers, Plain),
    ),
    (
        b"select_u64",
        Number(Query::Symbols(SymbolsQuery::SelectOf), TwoNumbers, Plain),
    ),
    (
        b"range_min_u64",
        Number(Query::Symbols(SymbolsQuery::Least), TwoNumbers, Plain),
    ),
    (
        b"range_max_u64",
        Number(Query::Symbols(SymbolsQuery::Greatest), TwoNumbers, Plain),
    ),
    (
        b"range_median_u64",
        Number(Query::Symbols(SymbolsQuery::Median), TwoNumbers, Plain),
    ),
    (
        b"rank_range_u64",
        Number(Query::Symbols(SymbolsQuery::RankRange), ThreeNumbers, Plain),
    ),
    (
        b"select_offset_u64",
        Number(
            Query::Symbols(SymbolsQuery::SelectFrom),
            ThreeNumbers,
            Plain,
        ),
    ),
    (
        b"quantile_u64",
        Number(Query::Symbols(SymbolsQuery::Quantile), ThreeNumbers, Plain),
    ),
    (
        b"predecessor_u64",
        Number(
            Query::Symbols(SymbolsQuery::Predecessor),
            ThreeNumbers,
            Plain,
        ),
    ),
    (
        b"successor_u64",
        Number(Query::Symbols(SymbolsQuery::Successor), ThreeNumbers, Plain),
    ),
];

/// The query lines of documents with costs.
pub const POSTINGS_LINES: [(&[u8], Line); 6] = [
    (b"len", Number(Query::Len, NoNumber, Plain)),
    (b"contains", Number(Query::Has, OneNumber, Plain)),
    (b"rank", Number(Query::Rank, OneNumber, Plain)),
    (b"next", Number(Query::Successor, OneNumber, Plain)),
    (b"cheapest", Number(Query::Cheapest, TwoNumbers, Plain)),
    (b"intersect", Common),
];

/// The query lines of an inverted index.
pub const INVERTED_LINES: [(&[u8], Line); 12] = [
    (b"len", Number(Query::Len, NoNumber, Plain)),
    (b"terms", Number(Query::Terms, NoNumber, Plain)),
    (b"universe", Number(Query::Universe, NoNumber, Plain)),
    (
        b"count",
        Number(Query::Term(TermQuery::Count), OneNumber, Plain),
    ),
    (
        b"get",
        Number(Query::Term(TermQuery::Get), TwoNumbers, Plain),
    ),
    (
        b"rank",
        Number(Query::Term(TermQuery::Rank), TwoNumbers, Plain),
    ),
    (
        b"contains",
        Number(Query::Term(TermQuery::Has), TwoNumbers, Plain),
    ),
    (
        b"next",
        Number(Query::Term(TermQuery::Successor), TwoNumbers, Plain),
    ),
    (b"documents", Documents),
    (b"and", Joined(Joint::Intersection)),
    (b"or", Joined(Joint::Union)),
    (b"without", Joined(Joint::Difference)),
];

/// Returns the load line that begins with a word, or `None` if none does.
pub fn load_of(word: &[u8]) -> Option<Load> {
    named(&LOADS, word)
}

/// Returns the query line of a structure that begins with a word, or `None` if none does.
pub fn line_of<A: Allocator + Copy>(structure: &Structure<'_, A>, word: &[u8]) -> Option<Line> {
    match structure {
        Structure::Bits(_) => named(&BITS_LINES, word),
        Structure::Sorted(_) => named(&SORTED_LINES, word),
        Structure::Sparse(_) => named(&SPARSE_LINES, word),
        Structure::Fast(_) => named(&VALUES_LINES, word),
        Structure::Tree(_) => named(&TREE_LINES, word),
        Structure::Symbols(_) => named(&SYMBOLS_LINES, word),
        Structure::Postings(_) => named(&POSTINGS_LINES, word),
        Structure::Inverted(_) => named(&INVERTED_LINES, word),
        _ => None,
    }
}

/// Returns true if a query line of some structure begins with a word.
pub fn is_query(word: &[u8]) -> bool {
    named(&BITS_LINES, word).is_some()
        || named(&SORTED_LINES, word).is_some()
        || named(&SPARSE_LINES, word).is_some()
        || named(&VALUES_LINES, word).is_some()
        || named(&TREE_LINES, word).is_some()
        || named(&SYMBOLS_LINES, word).is_some()
        || named(&POSTINGS_LINES, word).is_some()
        || named(&INVERTED_LINES, word).is_some()
}
