//! Compares an inverted index with a map of sets.

use crate::plain::Random;
use std::collections::{BTreeMap, BTreeSet};
use vers_vecs::error::BuildError;
use vers_vecs::inverted::InvertedIndex;
use vers_vecs::reads::Tally;
use vers_vecs::EliasFanoVec;

/// The documents of each term that has any.
type Plain = BTreeMap<u64, BTreeSet<u64>>;

fn pairs(plain: &Plain) -> Vec<(u64, u64)> {
    plain.iter().flat_map(|(&term, list)| list.iter().map(move |&document| (term, document))).collect()
}

fn numbers(list: &EliasFanoVec) -> Vec<u64> {
    list.iter().collect()
}

/// Terms of which some have no documents, and some have the first and the last.
fn plain(random: &mut Random, terms: u64, universe: u64, most: usize) -> Plain {
    let mut plain = Plain::new();
    for term in 0..terms {
        let count = random.below(most as u64 + 1) as usize;
        let list = plain.entry(term).or_default();
        list.extend(random.numbers(count, universe));
        if term % 3 == 0 {
            list.extend([0, universe - 1]);
        }
    }
    plain
}

/// The numbers of terms, the limits of documents, and how many documents a term has at most.
const SIZES: [(u64, u64, usize); 6] =
    [(1, 1, 1), (7, 20, 12), (40, 1000, 30), (12, 1 << 40, 90), (3, u64::MAX / 3, 20), (1, u64::MAX, 50)];

#[test]
fn queries_of_terms() {
    let mut random = Random::new(3);
    for (terms, universe, most) in SIZES {
        let plain = plain(&mut random, terms, universe, most);
        let index = InvertedIndex::from_pairs(terms, universe, &pairs(&plain)).unwrap();
        let index = index.clone();
        assert_eq!((index.terms(), index.universe()), (terms, universe));
        let pairs = pairs(&plain);
        assert_eq!((index.len(), index.is_empty()), (pairs.len(), pairs.is_empty()));
        let number = |i: usize| pairs.get(i).map(|(term, document)| term * universe + document);
        assert!((0..=pairs.len()).all(|i| index.pair_number(i) == number(i)));
        for term in 0..terms + 2 {
            let list = plain.get(&term).cloned().unwrap_or_default();
            assert!(index.documents(term).eq(list.iter().copied()));
            let mut documents = index.documents(term);
            for left in (0..=list.len()).rev() {
                assert_eq!((documents.len(), documents.next().is_some()), (left, left > 0));
            }
            assert_eq!((documents.size_hint(), documents.next()), ((0, Some(0)), None));
            assert_eq!(index.count(term), list.len() as u64);
            assert!((0..=list.len()).all(|i| index.get(term, i) == list.iter().nth(i).copied()));
            let ends = [0, universe - 1, universe, u64::MAX];
            for document in list.iter().copied().chain(random.numbers(20, universe)).chain(ends) {
                let next = list.range(document..).next().copied();
                assert_eq!(index.contains(term, document), list.contains(&document));
                assert_eq!(index.rank(term, document), list.range(..document).count() as u64);
                assert_eq!(index.next_at_least(term, document), next);
                assert_eq!(index.next_at_least_counted(term, document, &mut Tally::new()), next);
            }
        }
    }
}

#[test]
fn operations_on_terms() {
    let mut random = Random::new(4);
    for (terms, universe, most) in SIZES {
        let plain = plain(&mut random, terms, universe, most);
        let index = InvertedIndex::from_pairs(terms, universe, &pairs(&plain)).unwrap();
        let none = BTreeSet::new();
        let list = |term: u64| plain.get(&term).unwrap_or(&none);
        for (one, other) in (0..terms + 1).flat_map(|one| (0..terms + 1).map(move |other| (one, other))) {
            let both: Vec<u64> = list(one).intersection(list(other)).copied().collect();
            let either: Vec<u64> = list(one).union(list(other)).copied().collect();
            let first: Vec<u64> = list(one).difference(list(other)).copied().collect();
            assert_eq!(numbers(&index.intersection(one, other)), both);
            assert_eq!(numbers(&index.intersection_of(one, &[other])), both);
            assert_eq!(numbers(&index.union(one, other)), either);
            assert_eq!(numbers(&index.union_of(other, &[one])), either);
            assert_eq!(numbers(&index.difference(one, other)), first);
            assert_eq!(numbers(&index.difference_of(one, &[other])), first);
            assert!(numbers(&index.difference_of(one, &[])).iter().eq(list(one)));
            let rest = first.iter().filter(|document| !list((one + other) % terms).contains(document));
            assert!(numbers(&index.difference_of(one, &[other, (one + other) % terms])).iter().eq(rest));
        }
        let all: Vec<u64> = (1..terms).collect();
        let united: BTreeSet<u64> = plain.values().flatten().copied().collect();
        let common = |document: &&u64| plain.values().all(|list| list.contains(document));
        assert!(numbers(&index.union_of(0, &all)).iter().eq(&united));
        assert!(numbers(&index.intersection_of(0, &all)).iter().eq(list(0).iter().filter(common)));
    }
}

#[test]
fn pairs_that_are_refused() {
    let refused = |terms, universe, pairs: &[_]| InvertedIndex::from_pairs(terms, universe, pairs).unwrap_err();
    assert_eq!(refused(2, 1 << 63, &[]), BuildError::TooLong);
    assert!(BuildError::TooLong.to_string().contains("too great limits"));
    assert_eq!(refused(1 << 32, 1 << 32, &[]), BuildError::TooLong);
    assert_eq!(refused(2, 5, &[(0, 4), (1, 5)]), BuildError::OutOfRange { position: 1 });
    assert_eq!(refused(2, 5, &[(2, 0), (0, 1)]), BuildError::OutOfRange { position: 0 });
    assert_eq!(refused(2, 5, &[(0, 4), (1, 3), (1, 3)]), BuildError::NotAscending { position: 2 });
    assert_eq!(refused(2, 5, &[(1, 0), (0, 4)]), BuildError::NotAscending { position: 1 });
    assert_eq!(InvertedIndex::from_pairs(0, u64::MAX, &[]).unwrap().count(0), 0);
}

#[test]
fn sizes_and_debug() {
    let index = InvertedIndex::from_pairs(2, 9, &[(0, 4), (1, 3)]).unwrap();
    let numbers = EliasFanoVec::from_slice(&[4, 12]);
    assert_eq!(index.heap_size(), numbers.heap_size());
    assert_eq!(format!("{:?}", index), "InvertedIndex { len: 2, terms: 2, universe: 9 }");
    assert_eq!(format!("{:?}", index.documents(0)), "Documents { left: 1 }");
}
