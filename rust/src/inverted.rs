//! An inverted index, which the crate vers-vecs doesn't have: the documents of many terms in one Elias-Fano list.
//!
//! ```
//! use std::collections::BTreeMap;
//! use vers_vecs::inverted::InvertedIndex;
//!
//! let texts = ["the cat sat", "the dog ran", "a cat and the dog"];
//! let words: Vec<&str> = texts.iter().flat_map(|text| text.split(' ')).collect();
//! let mut terms: BTreeMap<&str, u64> = words.iter().map(|word| (*word, 0)).collect();
//! terms.values_mut().zip(0..).for_each(|(term, number)| *term = number);
//! let mut pairs: Vec<(u64, u64)> = (0..)
//!     .zip(texts)
//!     .flat_map(|(document, text)| text.split(' ').map(move |word| (word, document)))
//!     .map(|(word, document)| (terms[word], document))
//!     .collect();
//! pairs.sort_unstable();
//! pairs.dedup();
//!
//! let index = InvertedIndex::from_pairs(terms.len() as u64, texts.len() as u64, &pairs).unwrap();
//! let (the, cat, dog) = (terms["the"], terms["cat"], terms["dog"]);
//! assert_eq!(index.count(the), 3);
//! assert!(index.contains(cat, 0) && !index.contains(dog, 0));
//! assert_eq!(index.next_at_least(cat, 1), Some(2));
//! assert_eq!(index.intersection(cat, dog).iter().collect::<Vec<_>>(), [2]);
//! assert_eq!(index.union(cat, dog).len(), 3);
//! assert_eq!(index.difference(the, cat).iter().collect::<Vec<_>>(), [1]);
//! assert!(index.difference_of(the, &[cat, dog]).is_empty());
//! assert_eq!(index.documents(dog).collect::<Vec<_>>(), [1, 2]);
//! ```

use crate::contracts::contract;
use crate::elias_fano::EliasFanoVec;
use crate::error::{granted, BuildError};
use crate::items::{clones, compares, counted};
use crate::proved::inverted as proved;
use crate::rattle::Global;
use crate::saved::saved;
use std::fmt;

/// Ascending lists of documents, one for each term. Terms and documents are numbers, and no list has an equal document
/// twice.
///
/// All lists are one list of the numbers `term * universe + document`, an [`EliasFanoVec`]: a short list costs about as
/// much a document as a long one. A term that the index doesn't have has no documents. Indexes are equal if their pairs
/// and their limits are.
pub struct InvertedIndex {
    index: proved::InvertedIndex<Global>,
}

impl InvertedIndex {
    /// Indexes pairs of a term below `terms` and a document below `universe`, in O(`pairs.len()`). Pairs ascend strictly:
    /// by term, and pairs of one term by document.
    ///
    /// # Errors
    /// `TooLong` if `terms * universe` is above `u64::MAX`, `OutOfRange` if a term or a document isn't below its limit,
    /// `NotAscending` if a pair isn't above the one before it, and `OutOfMemory`: the first that applies.
    #[doc = contract!(InvertedIndex::from_pairs)]
    pub fn from_pairs(terms: u64, universe: u64, pairs: &[(u64, u64)]) -> Result<Self, BuildError> {
        use proved::InvertedError;
        let first = |is_wrong: &dyn Fn(usize) -> bool| (0..pairs.len()).find(|&i| is_wrong(i)).unwrap_or(0);
        match proved::InvertedIndex::from_pairs(Global, terms, universe, pairs) {
            Ok(index) => Ok(InvertedIndex { index }),
            Err(InvertedError::TooLarge) => Err(BuildError::TooLong),
            Err(InvertedError::OutOfRange) => {
                Err(BuildError::OutOfRange { position: first(&|i| pairs[i].0 >= terms || pairs[i].1 >= universe) })
            }
            Err(InvertedError::NotAscending) => {
                Err(BuildError::NotAscending { position: first(&|i| i > 0 && pairs[i - 1] >= pairs[i]) })
            }
            Err(InvertedError::Memory) => Err(BuildError::OutOfMemory),
        }
    }

    /// Returns the number of terms.
    #[doc = contract!(InvertedIndex::terms)]
    #[must_use]
    #[inline]
    pub fn terms(&self) -> u64 {
        self.index.terms()
    }

    /// Returns the number that all documents are below.
    #[doc = contract!(InvertedIndex::universe)]
    #[must_use]
    #[inline]
    pub fn universe(&self) -> u64 {
        self.index.universe()
    }

    /// Returns the number of pairs of a term and a document.
    #[doc = contract!(InvertedIndex::len)]
    #[must_use]
    #[inline]
    pub fn len(&self) -> usize {
        self.index.len()
    }

    /// Returns true if no term has a document.
    #[must_use]
    #[inline]
    pub fn is_empty(&self) -> bool {
        self.len() == 0
    }

    /// Returns the pair at position `i` of all pairs as the number `term * universe + document`, or `None` past the end.
    #[doc = contract!(InvertedIndex::pair_number)]
    #[must_use]
    #[inline]
    pub fn pair_number(&self, i: usize) -> Option<u64> {
        self.index.pair_number(i)
    }

    /// Returns the number of bytes on the heap.
    #[doc = contract!(InvertedIndex::heap_size)]
    #[must_use]
    pub fn heap_size(&self) -> usize {
        self.index.heap_size()
    }

    /// Returns the number of documents of a term.
    #[doc = contract!(InvertedIndex::count)]
    #[must_use]
    #[inline]
    pub fn count(&self, t: u64) -> u64 {
        self.index.count(t)
    }

    /// Returns true if term `t` has document `d`.
    #[doc = contract!(InvertedIndex::contains)]
    #[must_use]
    #[inline]
    pub fn contains(&self, t: u64, d: u64) -> bool {
        self.index.contains(t, d)
    }

    /// Returns the document of term `t` at position `i`, or `None` past the end.
    #[doc = contract!(InvertedIndex::get)]
    #[must_use]
    #[inline]
    pub fn get(&self, t: u64, i: usize) -> Option<u64> {
        self.index.get(t, i)
    }

    /// Returns how many documents of term `t` are less than `d`.
    #[doc = contract!(InvertedIndex::rank)]
    #[must_use]
    #[inline]
    pub fn rank(&self, t: u64, d: u64) -> u64 {
        self.index.rank(t, d)
    }

    /// Returns the first document of term `t` that is at least `d`, or `None` if there is none.
    #[doc = contract!(InvertedIndex::next_at_least)]
    #[must_use]
    #[inline]
    pub fn next_at_least(&self, t: u64, d: u64) -> Option<u64> {
        self.index.next_at_least(t, d)
    }

    /// Iterates over the documents of a term, after a search for the first.
    #[doc = contract!(InvertedIndex::documents)]
    pub fn documents(&self, t: u64) -> Documents<'_> {
        Documents { documents: self.index.documents(t), index: &self.index, term: t, taken: 0 }
    }

    /// Returns the documents that have both terms, with at most n + 1 searches for each, where n is the number of
    /// documents of the rarer term.
    #[doc = contract!(InvertedIndex::intersection)]
    #[must_use]
    #[track_caller]
    pub fn intersection(&self, one: u64, other: u64) -> EliasFanoVec {
        EliasFanoVec { numbers: granted(self.index.intersection(Global, one, other)) }
    }

    /// Returns the documents that have one of two terms, or both.
    #[doc = contract!(InvertedIndex::union)]
    #[must_use]
    #[track_caller]
    pub fn union(&self, one: u64, other: u64) -> EliasFanoVec {
        EliasFanoVec { numbers: granted(self.index.union(Global, one, other)) }
    }

    /// Returns the documents that have the first term and not the other.
    #[doc = contract!(InvertedIndex::difference)]
    #[must_use]
    #[track_caller]
    pub fn difference(&self, one: u64, other: u64) -> EliasFanoVec {
        EliasFanoVec { numbers: granted(self.index.difference(Global, one, other)) }
    }

    /// Returns the documents that have the first term and each of the others, with at most n + 1 searches for each,
    /// where n is the number of documents of the first: put the rarest term first.
    #[doc = contract!(InvertedIndex::intersection_of)]
    #[must_use]
    #[track_caller]
    pub fn intersection_of(&self, first: u64, others: &[u64]) -> EliasFanoVec {
        EliasFanoVec { numbers: granted(self.index.intersection_of(Global, first, others)) }
    }

    /// Returns the documents that have the first term or one of the others.
    #[doc = contract!(InvertedIndex::union_of)]
    #[must_use]
    #[track_caller]
    pub fn union_of(&self, first: u64, others: &[u64]) -> EliasFanoVec {
        EliasFanoVec { numbers: granted(self.index.union_of(Global, first, others)) }
    }

    /// Returns the documents that have the first term and none of the others.
    #[doc = contract!(InvertedIndex::difference_of)]
    #[must_use]
    #[track_caller]
    pub fn difference_of(&self, first: u64, others: &[u64]) -> EliasFanoVec {
        EliasFanoVec { numbers: granted(self.index.difference_of(Global, first, others)) }
    }
}

counted! { InvertedIndex, index:
    pair_number_counted, pair_number(i: usize) -> Option<u64>;
    count_counted, count(t: u64) -> u64;
    contains_counted, contains(t: u64, d: u64) -> bool;
    get_counted, get(t: u64, i: usize) -> Option<u64>;
    rank_counted, rank(t: u64, d: u64) -> u64;
    next_at_least_counted, next_at_least(t: u64, d: u64) -> Option<u64>;
}

clones!(InvertedIndex, index);
compares!(InvertedIndex, |it| [it.terms(), it.universe()].into_iter().chain(it.index.pair_numbers().iter()));
saved!(InvertedIndex, index);

impl Default for InvertedIndex {
    /// Returns the index of no terms and no documents.
    fn default() -> Self {
        granted(InvertedIndex::from_pairs(0, 0, &[]))
    }
}

impl fmt::Debug for InvertedIndex {
    fn fmt(&self, f: &mut fmt::Formatter<'_>) -> fmt::Result {
        f.debug_struct("InvertedIndex")
            .field("len", &self.len())
            .field("terms", &self.terms())
            .field("universe", &self.universe())
            .finish()
    }
}

/// An iterator over the documents of a term, which allocates nothing. `len` takes two searches to find the number of
/// documents left.
#[must_use = "iterators do nothing unless they are used"]
pub struct Documents<'a> {
    documents: proved::Documents<'a, Global>,
    index: &'a proved::InvertedIndex<Global>,
    term: u64,
    taken: u64,
}

impl Iterator for Documents<'_> {
    type Item = u64;

    #[inline]
    fn next(&mut self) -> Option<u64> {
        let document = self.documents.next();
        self.taken += u64::from(document.is_some());
        document
    }

    fn size_hint(&self) -> (usize, Option<usize>) {
        let left = (self.index.count(self.term) - self.taken) as usize;
        (left, Some(left))
    }
}

impl ExactSizeIterator for Documents<'_> {}

impl std::iter::FusedIterator for Documents<'_> {}

impl fmt::Debug for Documents<'_> {
    fn fmt(&self, f: &mut fmt::Formatter<'_>) -> fmt::Result {
        f.debug_struct("Documents").field("left", &self.len()).finish()
    }
}
