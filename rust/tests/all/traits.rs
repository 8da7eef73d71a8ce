//! The traits of Rust that types have.
use std::collections::hash_map::DefaultHasher;
use std::error::Error;
use std::fmt::Debug;
use std::hash::{Hash, Hasher};
use std::iter::FusedIterator;
use std::panic::{RefUnwindSafe, UnwindSafe};
use vers_vecs::error::BuildError;
use vers_vecs::inverted::InvertedIndex;
use vers_vecs::postings::Postings;
use vers_vecs::reads::Tally;
use vers_vecs::saved::{LoadError, SaveError};
use vers_vecs::text::TextIndex;
use vers_vecs::wavelet_tree::WaveletTree;
use vers_vecs::word_rank::WordRank;
use vers_vecs::*;

fn value<T: Clone + Debug + Default + PartialEq + Eq + Hash>(one: &T, other: &T) {
    let hash = |it: &T| {
        let mut hasher = DefaultHasher::new();
        it.hash(&mut hasher);
        hasher.finish()
    };
    assert_eq!((one, hash(one)), (&one.clone(), hash(&one.clone())));
    assert_ne!(hash(one), hash(other));
    assert_ne!(one, other);
    assert_ne!(one, &T::default());
    assert_eq!(T::default(), T::default());
}

#[test]
fn values_are_compared_hashed_and_cloned() {
    let bits = |number: u64| BitVec::pack_sequence_u64(&[number, 1], 40);
    value(&bits(5), &bits(4));
    value(&RsVec::from(bits(5)), &RsVec::from(bits(4)));
    value(&SparseRSVec::from_bitvec(&bits(5)), &SparseRSVec::from_bitvec(&bits(4)));
    value(&SparseRSVec::new(&[3], 9), &SparseRSVec::new(&[3], 10));
    value(&EliasFanoVec::from_slice(&[1, 5]), &EliasFanoVec::from_slice(&[1, 6]));
    value(&WaveletMatrix::from_slice(&[1, 5], 3), &WaveletMatrix::from_slice(&[1, 5], 4));
    assert_ne!(WaveletMatrix::from_slice(&[], 3), WaveletMatrix::from_slice(&[], 4));
    value(&WaveletMatrix::from_bit_vec(&bits(5), 80), &WaveletMatrix::from_bit_vec(&bits(4), 80));
    value(&BinaryRmq::from_vec(vec![1, 5]), &BinaryRmq::from_vec(vec![1, 6]));
    value(&FastRmq::from_vec(vec![1, 5]), &FastRmq::from_vec(vec![1, 6]));
    value(&BpTree::<512>::from(bits(5)), &BpTree::<512>::from(bits(4)));
    value(&WordRank::from(bits(5)), &WordRank::from(bits(4)));
    let tree = |width| WaveletTree::from_integers(&[1_u8, 5], width).unwrap();
    value(&tree(3), &tree(4));
    let postings = |cost| Postings::from_sorted(&[3, 8], &[1, cost]).unwrap();
    value(&postings(5), &postings(4));
}

#[test]
fn indexes_are_compared_hashed_and_cloned() {
    let index = |terms, universe, last| InvertedIndex::from_pairs(terms, universe, &[(0, 3), (1, last)]).unwrap();
    for other in [index(3, 9, 4), index(2, 8, 4), index(2, 9, 5)] {
        value(&index(2, 9, 4), &other);
    }
    // the numbers of the first term's pairs don't depend on the limit of documents
    let of_one_term = |universe| InvertedIndex::from_pairs(1, universe, &[(0, 3)]).unwrap();
    value(&of_one_term(9), &of_one_term(8));
    let text = |last, width, step| {
        let symbols: Vec<u64> = (0..1 << 17).map(|i| i % 3).chain([last]).collect();
        TextIndex::with_step(&symbols, width, step).unwrap()
    };
    for other in [text(3, 2, 64), text(2, 3, 64)] {
        value(&text(2, 2, 64), &other);
    }
    assert_eq!(text(2, 2, 64), text(2, 2, 256));
    // both have the column 1 1 0, and differ by the row of the whole text
    let short = |symbols: &[u64]| TextIndex::from_slice(symbols, 1).unwrap();
    value(&short(&[1, 0, 1]), &short(&[0, 1, 1]));
}

#[test]
fn debug_shows_items_and_shortens_many() {
    assert_eq!(format!("{:?}", BitVec::from_bits(&[1, 0])), "BitVec { len: 2, bits: [1, 0] }");
    assert_eq!(format!("{:?}", RsVec::from(BitVec::from_bits(&[1, 0]))), "RsVec { len: 2, bits: [1, 0] }");
    assert_eq!(format!("{:?}", SparseRSVec::new(&[7], 9)), "SparseRSVec { len: 9, ones: [7] }");
    assert_eq!(format!("{:?}", FastRmq::from_vec(vec![7])), "FastRmq { len: 1, values: [7] }");
    assert_eq!(format!("{:?}", WaveletMatrix::from_slice(&[5, 1], 3)), "WaveletMatrix { len: 2, symbols: [5, 1] }");
    let tree: BpTree = BpTree::from(BitVec::from_bits(&[1, 0]));
    assert_eq!(format!("{tree:?}"), "BpTree { len: 2, parentheses: [1, 0] }");
    assert_eq!(format!("{:?}", Postings::from_sorted(&[3], &[1]).unwrap()), "Postings { len: 1, documents: [(3, 1)] }");
    assert_eq!(format!("{:?}", TextIndex::from_slice(&[3, 1], 2).unwrap()), "TextIndex { len: 2, symbols: [3, 1] }");
    assert_eq!(format!("{:?}", WordRank::from(BitVec::from_bits(&[1, 0]))), "WordRank { len: 2, bits: [1, 0] }");
    let tree = WaveletTree::from_integers(&[5_u8, 1], 3).unwrap();
    assert_eq!(format!("{tree:?}"), "WaveletTree { len: 2, symbols: [5, 1] }");
    let many: Vec<u64> = (0..33).collect();
    let shown = (0..32).map(|it| it.to_string() + ", ").collect::<String>();
    assert_eq!(
        format!("{:?}", EliasFanoVec::from_slice(&many)),
        format!("EliasFanoVec {{ len: 33, numbers: [{shown}..] }}")
    );
    let whole = format!("[{}]", shown.trim_end_matches(", "));
    assert!(format!("{:?}", EliasFanoVec::from_slice(&many[..32])).contains(&whole));
    let text = format!("{:?}", TextIndex::from_slice(&[1; 40], 1).unwrap());
    assert!(text.ends_with(&format!("[{}..] }}", "1, ".repeat(32))), "{text}");
    let (bits, mask) = (BitVec::from_ones(3), BitVec::from_bits(&[0, 1, 0]));
    assert_eq!(format!("{:?}", bits.mask_and(&mask).unwrap()), "MaskedBitVec { len: 3, bits: [0, 1, 0] }");
    assert_eq!(format!("{:?}", bits.iter()), "BitVecRefIter { left: 3 }");
    assert!(format!("{:?}", Tally::default()).starts_with("Tally { data_words: 0, block_entries: 0,"));
}

/// Iterators from both ends, which know their length and stay ended.
fn iterates<I>(items: I, wanted: Vec<I::Item>)
where
    I: DoubleEndedIterator + ExactSizeIterator + FusedIterator + Clone + Debug,
    I::Item: PartialEq + Debug + Clone + Ord,
{
    assert_eq!((items.len(), items.size_hint()), (wanted.len(), (wanted.len(), Some(wanted.len()))));
    assert_eq!(items.clone().collect::<Vec<_>>(), wanted);
    assert_eq!(items.clone().rev().collect::<Vec<_>>(), wanted.iter().rev().cloned().collect::<Vec<_>>());
    assert_eq!(
        (items.clone().min(), items.clone().max()),
        (wanted.iter().min().cloned(), wanted.iter().max().cloned())
    );
    assert_eq!((items.clone().last(), items.clone().count()), (wanted.last().cloned(), wanted.len()));
    for n in 0..wanted.len() + 2 {
        assert_eq!(items.clone().nth(n), wanted.get(n).cloned());
        assert_eq!(items.clone().nth_back(n), wanted.iter().rev().nth(n).cloned());
        let (mut left, mut plain) = (items.clone(), wanted.iter());
        assert_eq!((left.nth(n), left.next_back()), (plain.nth(n).cloned(), plain.next_back().cloned()));
        assert_eq!(
            (left.len(), left.clone().min(), left.max()),
            (plain.len(), plain.clone().min().cloned(), plain.max().cloned())
        );
    }
    let mut items = items;
    assert_eq!((items.nth(usize::MAX), items.next(), items.next_back(), items.len()), (None, None, None, 0));
}

#[test]
fn iterators_have_both_ends() {
    let bits = BitVec::from_bits(&[0, 1, 1, 0, 1]);
    iterates(bits.iter(), vec![0, 1, 1, 0, 1]);
    iterates(bits.clone().into_iter(), vec![0, 1, 1, 0, 1]);
    iterates(bits.iter_limbs(), vec![0b10110]);
    let list = RsVec::from(bits.clone());
    iterates(list.iter(), vec![0, 1, 1, 0, 1]);
    iterates(list.clone().into_iter(), vec![0, 1, 1, 0, 1]);
    iterates(list.iter0(), vec![0, 3]);
    iterates(list.clone().into_iter1(), vec![1, 2, 4]);
    assert!(list.bit_set_iter1().eq([1, 2, 4]) && list.bit_set_iter0().eq([0, 3]));
    assert_eq!((list.bit_set_iter1().min(), list.bit_set_iter0().min()), (Some(1), Some(0)));
    iterates(SparseRSVec::from_bitvec(&bits).iter1(), vec![1, 2, 4]);
    let numbers = EliasFanoVec::from_slice(&[3, 3, 9]);
    iterates(numbers.iter(), vec![3, 3, 9]);
    iterates(numbers.into_iter(), vec![3, 3, 9]);
    let symbols = WaveletMatrix::from_slice(&[5, 1, 7, 1], 3);
    iterates(symbols.iter_u64().unwrap(), vec![5, 1, 7, 1]);
    iterates(symbols.clone().into_iter_u64().unwrap(), vec![5, 1, 7, 1]);
    iterates(symbols.iter_sorted_u64().unwrap(), vec![1, 1, 5, 7]);
    iterates(symbols.clone().into_iter_sorted_u64().unwrap(), vec![1, 1, 5, 7]);
    assert_eq!(symbols.iter().len() + symbols.iter_sorted().rev().len() + symbols.into_iter_sorted().len(), 12);
    iterates(WordRank::from(bits).iter(), vec![0, 1, 1, 0, 1]);
    iterates(WaveletTree::from_integers(&[5_u8, 1, 7, 1], 3).unwrap().iter(), vec![5, 1, 7, 1]);
    let tree: BpTree = BpTree::from(BitVec::from_bits(&[1, 1, 0, 1, 1, 0, 0, 0]));
    iterates(tree.dfs_iter(), vec![0, 1, 3, 4]);
    iterates(tree.dfs_post_iter(), vec![1, 4, 3, 0]);
    iterates(tree.subtree_iter(3), vec![3, 4]);
    iterates(tree.subtree_post_iter(3), vec![4, 3]);
    iterates(tree.clone().into_iter(), vec![0, 1, 3, 4]);
    let postings = Postings::from_sorted(&[3, 8, 9], &[1, 5, 1]).unwrap();
    iterates(postings.iter(), vec![(3, 1), (8, 5), (9, 1)]);
    assert_eq!((&postings).into_iter().map(|(document, cost)| document * cost).sum::<u64>(), 52);
}

#[test]
fn conversions_go_both_ways() {
    let flags = [true, false, true];
    let mut bits: BitVec = flags.into_iter().collect();
    assert_eq!(bits, BitVec::from_bits(&[1, 0, 1]));
    bits.extend([false, true]);
    bits.extend(&[true, false]);
    assert_eq!(bits, BitVec::from_bits(&[1, 0, 1, 0, 1, 1, 0]));
    assert_eq!(flags.into_iter().collect::<RsVec>().into_bit_vec(), BitVec::from_bits(&[1, 0, 1]));
    let limbs: BitVec = [3, 4].into_iter().collect();
    assert_eq!((limbs.len(), &limbs), (128, &BitVec::from(&[3, 4][..])));
    let tree: BpTree = BpTree::from(bits.clone());
    assert_eq!((BitVec::from(tree.clone()), RsVec::from(tree)), (bits.clone(), RsVec::from(bits)));
    assert_eq!(EliasFanoVec::try_from(vec![1, 2]).unwrap(), EliasFanoVec::try_from(&[1, 2][..]).unwrap());
    let values = FastRmq::from(&[4, 2][..]);
    assert_eq!((values[1], values.iter().sum::<u64>(), (&values).into_iter().len()), (2, 6, 2));
    assert_eq!((Vec::from(values.clone()), values.into_iter().collect::<Vec<_>>()), (vec![4, 2], vec![4, 2]));
    assert_eq!(BinaryRmq::from_iter([4, 2]), BinaryRmq::from(vec![4, 2]));
}

fn crosses<T: Send + Sync + UnwindSafe + RefUnwindSafe + Unpin + 'static>() {}

#[test]
fn all_types_cross_threads() {
    crosses::<(BitVec, RsVec, SparseRSVec, EliasFanoVec, WaveletMatrix, BinaryRmq, FastRmq)>();
    crosses::<(BpTree, BpBuilder, Postings, TextIndex, Tally, BitMask)>();
    crosses::<(WordRank, WaveletTree, wavelet_tree::WaveletTreeIter)>();
    crosses::<(bit_vec::BitVecIter, bit_vec::BitVecRefIter, bit_vec::LimbIter, bit_vec::sparse::SparseIter)>();
    crosses::<(bit_vec::fast_rs_vec::SelectIntoIter<true>, bit_vec::fast_rs_vec::BitSetIter<false>)>();
    crosses::<(elias_fano::EliasFanoIter, wavelet::WaveletSortedRefIter, trees::bp::PostIter<512>)>();
    crosses::<(BuildError, LoadError, SaveError)>();
}

type BitMask = bit_vec::BitMask<'static, 'static>;

#[test]
fn errors_say_what_is_wrong() {
    let rows: [(Box<dyn Error + Send + Sync>, &str); 21] = [
        (
            Box::new(BuildError::NotAscending { position: 3 }),
            "ascend, and the one at position 3 isn't above the one before it",
        ),
        (Box::new(BuildError::OutOfRange { position: 3 }), "at position 3 is not below its limit"),
        (Box::new(BuildError::SymbolTooWide { position: 3 }), "at position 3 has more bits than a symbol"),
        (Box::new(BuildError::UnsupportedWidth { bits: 3 }), "can't have 3 bits"),
        (Box::new(BuildError::PartialSymbol), "no multiple of the width"),
        (Box::new(BuildError::LengthMismatch), "the lengths do not match"),
        (Box::new(BuildError::ZeroStep), "the sampling step is 0"),
        (Box::new(BuildError::TooLong), "too many items"),
        (Box::new(BuildError::OutOfMemory), "out of memory"),
        (Box::new(LoadError::TooShort), "cut off"),
        (Box::new(LoadError::NotOurs), "do not begin as a saved form"),
        (Box::new(LoadError::OtherVersion), "another version"),
        (Box::new(LoadError::OtherKind), "another kind"),
        (Box::new(LoadError::BadLength), "no such structure is as long"),
        (Box::new(LoadError::BadSum), "the sum is not that"),
        (Box::new(LoadError::BadPadding), "past the end of the list"),
        (Box::new(LoadError::NotAscending), "do not ascend"),
        (Box::new(LoadError::NotAText), "no text has"),
        (Box::new(LoadError::OutOfMemory), "out of memory"),
        (Box::new(SaveError::NoForm), "no saved form"),
        (Box::new(SaveError::OutOfMemory), "out of memory"),
    ];
    for (error, words) in rows {
        assert!(error.to_string().contains(words) && error.source().is_none(), "{error}, and not {words}");
    }
}
