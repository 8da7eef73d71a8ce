//! Tests that the proved crates lack: each finds wrong bodies that no test there finds.

use crate::proved::postings::Postings;
use crate::proved::text_index::{TextIndex, DEFAULT_STEP};
use crate::proved::vers_bits::bit_vec::{BitVec, GrowError, MAX_LEN};
use crate::proved::vers_rank::fast_rs_vec::RsVec;
use crate::proved::vers_rmq::rmq::binary_rmq::BinaryRmq;
use crate::proved::vers_rmq::rmq::fast_rmq::FastRmq;
use crate::proved::vers_saved::fault::LoadError;
use crate::proved::vers_saved::saved::{load_from_slice, save_to_vec, Loaded, Saved};
use crate::proved::vers_saved::trees::{load_parentheses_from_slice, load_tree, load_tree_from_slice};
use crate::proved::vers_saved::{FACTOR, MAGIC, START, TURN};
use crate::proved::vers_sorted::elias_fano::EliasFanoVec;
use crate::proved::vers_sorted::sparse::SparseRSVec;
use crate::proved::vers_tally::tally::{CountedBits, Tally};
use crate::proved::vers_trees::trees::bp::{BpBuilder, BpTree};
use crate::proved::vers_trees::trees::Tree;
use crate::proved::vers_wavelet::wavelet::{GetQuery, WaveletMatrix};
use crate::rattle::{Clone as _, Global, Vec};
use std::ops::Bound;

type Plain<T> = std::vec::Vec<T>;

fn scattered(n: usize, seed: u64) -> Plain<bool> {
    super::xorshift(n, seed).into_iter().map(|number| number % 3 == 0).collect()
}

fn list(bits: &[bool]) -> BitVec<Global> {
    BitVec::from_bools(Global, bits).ok().unwrap()
}

#[test]
fn masks_are_read_past_their_first_limb() {
    let (one, other) = (scattered(200, 7), scattered(200, 77));
    let (left, right) = (list(&one), list(&other));
    let both = list(&one.iter().zip(&other).map(|(a, b)| a & b).collect::<Plain<_>>());
    let Ok(kept) = left.mask_and(&right) else { panic!() };
    let Ok(custom) = left.mask_custom(&right, |a: u64, b: u64| a & b) else { panic!() };
    for position in 0..200 {
        let wanted = both.get(position);
        assert!(kept.get(position) == wanted && kept.get_unchecked(position) == wanted.unwrap());
        assert!(
            kept.is_bit_set(position) == both.is_bit_set(position)
                && kept.is_bit_set_unchecked(position) == (wanted == Some(1))
        );
        assert!(custom.get(position) == wanted && custom.is_bit_set(position) == both.is_bit_set(position));
        if position <= 136 {
            assert!(
                kept.get_bits_unchecked(position, 64) == both.get_bits_unchecked(position, 64)
                    && custom.get_bits(position, 64) == both.get_bits(position, 64)
            );
        }
    }
    assert!(custom.get_bits(usize::MAX - 3, 8).is_none() && custom.get_bits(usize::MAX, 1).is_none());
}

#[test]
fn clones_of_walks_go_on_where_these_are() {
    let bits = scattered(100, 5);
    let mut walk = list(&bits).into_iter();
    walk.next();
    walk.next_back();
    assert!(walk.clone().ok().unwrap().eq(bits[1..99].iter().map(|it| u64::from(*it))));
    let indexed = RsVec::from_bit_vec(list(&bits)).ok().unwrap();
    let mut ones = indexed.iter1();
    ones.next();
    assert!(BothEndsClone::second(&ones).eq((0..100).filter(|it| bits[*it]).skip(1)));
    let symbols = WaveletMatrix::from_slice(Global, &[3, 1, 2, 0], 2).ok().unwrap();
    let mut walk = symbols.iter();
    walk.next();
    assert!(walk.size_hint() == (3, Some(3)) && walk.clone().len() == 3);
    let tree = BpTree::<8, Global>::from_bit_vector(list(&[true, true, false, true, false, false])).ok().unwrap();
    let walk = tree.dfs_post_iter();
    assert!(walk.clone().len() == 3 && walk.clone().eq(walk));
    assert!(tree.subtree_post_iter(3).clone().eq([3]));
}

/// The inherent clone of walks that borrow.
trait BothEndsClone {
    fn second(&self) -> Self;
}

impl BothEndsClone for crate::proved::vers_rank::fast_rs_vec::SelectIter<'_, false, Global> {
    fn second(&self) -> Self {
        self.clone()
    }
}

#[test]
fn lengths_at_the_greatest_are_no_fault_of_length() {
    assert!(BitVec::from_zeros(Global, MAX_LEN).err() == Some(GrowError::Memory));
    let most = crate::proved::vers_trees::trees::bp::MAX_LEN as u64 / 2;
    assert!(BpBuilder::<8, Global>::with_capacity(Global, most).err() == Some(GrowError::Memory));
}

#[test]
fn equality_of_positions_sees_the_length() {
    let mut bits = scattered(100, 9);
    bits[99] = true;
    let short = RsVec::from_bit_vec(list(&bits)).ok().unwrap();
    bits.push(false);
    let long = RsVec::from_bit_vec(list(&bits)).ok().unwrap();
    assert!(!short.sparse_equals::<false>(&long) && !long.sparse_equals::<false>(&short));
}

#[test]
fn empty_is_only_what_has_nothing() {
    assert!(!SparseRSVec::new(Global, &[], 1).ok().unwrap().is_empty());
    assert!(!WaveletMatrix::from_slice(Global, &[1], 1).ok().unwrap().is_empty());
    let tree = BpTree::<8, Global>::from_bit_vector(list(&[true, false])).ok().unwrap();
    assert!(!Tree::is_empty(&tree) && Tree::node_handle(&tree, 0) == 0 && Tree::node_handle(&tree, 1) == 2);
    assert!(tree.has_node(0) && !tree.has_node(1));
    assert!(GetQuery::new(3).answer.is_none());
}

#[test]
fn ascending_lists_in_clusters() {
    let mut elements: Plain<u64> = (0..300).map(|k| 1_000_000_000 + 2 * k + k % 5 * (k / 40)).collect();
    elements.extend((0..300).map(|k| 5_000_000_000 + 3 * k));
    elements.extend([7, 9, 1 << 40]);
    elements.sort();
    let vec = EliasFanoVec::from_slice(Global, &elements).ok().unwrap();
    for at in elements.iter().flat_map(|it| [it - 1, *it, it + 1]).filter(|it| *it > 6) {
        assert!(vec.rank(at) as usize == elements.partition_point(|it| *it < at), "{at}");
        let (before, after) = (elements.iter().rev().find(|it| **it <= at), elements.iter().find(|it| **it >= at));
        assert!(vec.predecessor(at) == before.copied() && vec.successor(at) == after.copied(), "{at}");
        assert!(vec.has(at) == elements.contains(&at));
        if let Some(before) = before {
            assert!(vec.predecessor_unchecked(at) == *before);
        }
        if let Some(after) = after {
            assert!(vec.successor_unchecked(at) == *after);
        }
    }
}

#[test]
fn sizes_of_ascending_lists() {
    let clog = |it: u64| 64 - u64::from((it - 1).leading_zeros());
    for n in 1u64..200 {
        for (first, step) in [(0, 1), (1 << 50, 1), (1 << 50, 1000), (5, 3)] {
            let elements: Plain<u64> = (0..n).map(|k| first + k * step).collect();
            let u = (n - 1) * step;
            let width = clog(u.max(2)).max(clog(n + 2)) - clog(n.max(2));
            let high = 2 + n + (u >> width);
            let index = |n: u64, ones: u64| {
                8 * n.div_ceil(64) + 2 * n.div_ceil(512) + 8 * n.div_ceil(8192) + 16 * (ones.max(n - ones) / 8192 + 2)
            };
            let vec = EliasFanoVec::from_slice(Global, &elements).ok().unwrap();
            assert_eq!(
                vec.heap_size() as u64,
                index(high, n) + 8 * (n * width).div_ceil(64),
                "{n} from {first} by {step}"
            );
        }
    }
}

#[test]
fn ranges_to_the_length_are_cut() {
    for n in [1, 4, 128] {
        let items = || Vec::from_elem(Global, 7, n).ok().unwrap();
        let minima = BinaryRmq::from_vec(items()).ok().unwrap();
        assert!(minima.range_min_with_range(Bound::Unbounded, Bound::Included(n)) == 0);
        let minima = FastRmq::from_vec(items()).ok().unwrap();
        assert!(minima.range_min_with_range(Bound::Unbounded, Bound::Included(n)) == 0);
    }
}

#[test]
fn nothing_is_counted_where_nothing_is_read() {
    let bits = CountedBits::new(list(&scattered(100, 3)));
    let mut tally = Tally::new();
    assert!(
        bits.get(100, &mut tally).is_none() && bits.get_bits(5, 0, &mut tally).is_none() && tally.data_words() == 0
    );
}

#[test]
fn searches_over_whole_words_are_those_of_a_scan() {
    for seed in 1..5 {
        let mut bits = scattered(2100, seed);
        for (k, bit) in bits.iter_mut().enumerate() {
            *bit = [*bit, k / 64 % 2 == 0, !*bit, k % 64 < 30][seed as usize % 4];
        }
        let tree = BpTree::<512, Global>::from_bit_vector(list(&bits)).ok().unwrap();
        let step = |k: usize| if bits[k] { 1 } else { -1 };
        for i in (0..2100).step_by(53) {
            for r in -140i64..140 {
                let mut sum = 0;
                let after = (i + 1..2100).find(|k| {
                    sum += step(*k);
                    sum == r
                });
                assert!(tree.fwd_search(i, r) == after, "{seed} {i} {r}");
                sum = 0;
                let before = (0..i).rev().find(|k| {
                    sum -= step(*k);
                    sum == r
                });
                assert!(tree.bwd_search(i, r) == before, "{seed} {i} {r}");
            }
        }
    }
}

/// The words of the saved form of a list.
fn form_words<S: Saved>(list: &S) -> Plain<u64> {
    let mut bytes = Vec::new(Global);
    assert!(save_to_vec(list, &mut bytes).is_ok());
    bytes.as_slice().chunks_exact(8).map(|it| u64::from_le_bytes(it.try_into().unwrap())).collect()
}

/// The list that words are the saved form of.
fn list_of_form<S: Loaded<Global>>(words: &[u64]) -> S {
    let bytes: Plain<u8> = words.iter().flat_map(|it| it.to_le_bytes()).collect();
    load_from_slice(Global, &bytes).ok().unwrap()
}

#[test]
fn long_lists_go_round() {
    let elements: Plain<u64> = (0..15_000).map(|k| k * k).collect();
    let sorted = EliasFanoVec::from_slice(Global, &elements).ok().unwrap();
    let words = form_words(&sorted);
    assert_eq!(words[5..8], [15_000, 0, 14_999 * 14_999]);
    assert!(list_of_form::<EliasFanoVec<Global>>(&words).iter().eq(elements.iter().copied()));
    let sparse = form_words(&SparseRSVec::new(Global, &elements, 1 << 40).ok().unwrap());
    assert_eq!((sparse[5], &sparse[6..sparse.len() - 1]), (1 << 40, &words[5..words.len() - 1]));
    assert!(list_of_form::<SparseRSVec<Global>>(&sparse).iter1().eq(elements.iter().copied()));
    let costs = Vec::from_slice(Global, &elements).ok().unwrap();
    let posted = form_words(&Postings::from_sorted(&elements, costs).ok().unwrap());
    assert!(posted[5..15_005] == elements[..] && posted[15_005..30_005] == elements[..]);
}

#[test]
fn no_bits_go_round() {
    let words = form_words(&SparseRSVec::new(Global, &[], 0).ok().unwrap());
    assert_eq!(words[5..9], [0, 0, 0, 0]);
    assert!(list_of_form::<SparseRSVec<Global>>(&words).is_empty());
}

/// Words with the right sum as the last one.
fn summed(mut words: Plain<u64>) -> Plain<u64> {
    let sum = words.iter().fold(START, |sum, it| (sum ^ it).wrapping_mul(FACTOR).rotate_left(TURN));
    words.push(sum);
    words
}

#[test]
fn words_of_no_parts() {
    let more = summed(vec![MAGIC, 2, 2, 64, 4, 0, 0, 0, 0]);
    let bytes: Plain<u8> = more.iter().flat_map(|it| it.to_le_bytes()).collect();
    assert!(load_from_slice::<EliasFanoVec<Global>, _>(Global, &bytes).err() == Some(LoadError::NotAscending));
    let equal = form_words(&EliasFanoVec::from_slice(Global, &[1, 1]).ok().unwrap());
    let mut positions = vec![MAGIC, 2, 4, 64, equal[4] + 1, 12];
    positions.extend(&equal[5..equal.len() - 1]);
    let bytes: Plain<u8> = summed(positions).iter().flat_map(|it| it.to_le_bytes()).collect();
    assert!(load_from_slice::<SparseRSVec<Global>, _>(Global, &bytes).err() == Some(LoadError::NotAscending));
}

#[test]
fn trees_of_other_blocks_are_refused() {
    let bits = [true, true, false, false];
    let tree = BpTree::<512, &Global>::from_bit_vector(BitVec::from_bools(&Global, &bits).ok().unwrap()).ok().unwrap();
    let mut bytes = Vec::new(Global);
    assert!(save_to_vec(&tree, &mut bytes).is_ok());
    let bytes = bytes.as_slice();
    assert!(
        load_tree_from_slice::<512, Global>(&Global, bytes).is_ok()
            && load_tree_from_slice::<8, Global>(&Global, bytes).is_err()
    );
    assert!(
        load_tree::<512, Global, _>(&Global, &mut &bytes[..]).is_ok()
            && load_tree::<8, Global, _>(&Global, &mut &bytes[..]).is_err()
    );
    assert!(
        load_parentheses_from_slice(Global, 512, bytes).is_ok()
            && load_parentheses_from_slice(Global, 8, bytes).is_err()
    );
}

/// Saved words of which one is another, with their sum.
fn resaved(bytes: &[u8], at: usize, word: u64) -> Plain<u8> {
    let mut words: Plain<u64> = bytes.chunks_exact(8).map(|it| u64::from_le_bytes(it.try_into().unwrap())).collect();
    words[at] = word;
    words.pop();
    summed(words).iter().flat_map(|it| it.to_le_bytes()).collect()
}

#[test]
fn forms_that_no_list_has_are_refused() {
    let mut bytes = Vec::new(Global);
    assert!(save_to_vec(&list(&[false, false, false, true]), &mut bytes).is_ok());
    let loads = |bytes: &[u8]| load_from_slice::<BitVec<Global>, Global>(Global, bytes).is_ok();
    let bytes = bytes.as_slice();
    assert!(loads(&resaved(bytes, 4, 4)) && loads(&resaved(bytes, 4, 5)) && !loads(&resaved(bytes, 4, 3)));
    let tree =
        BpTree::<8, &Global>::from_bit_vector(BitVec::from_bools(&Global, &[true, false]).ok().unwrap()).ok().unwrap();
    let mut bytes = Vec::new(Global);
    assert!(save_to_vec(&tree, &mut bytes).is_ok());
    assert!(load_parentheses_from_slice(Global, 8, bytes.as_slice()).is_ok());
    assert!(load_parentheses_from_slice(Global, 0, &resaved(bytes.as_slice(), 3, 0)).is_err());
}

#[test]
fn a_text_keeps_a_position_of_each_32() {
    assert!(TextIndex::from_slice(Global, &[1, 2, 3], 3).ok().unwrap().step() == DEFAULT_STEP);
}

#[test]
fn ranks_and_bits_of_every_position() {
    for n in [1, 63, 64, 449, 500, 511, 512, 513, 1000, 8192 + 500] {
        let bits = scattered(n, n as u64);
        let Ok(index) = RsVec::from_bit_vec(list(&bits)) else { panic!() };
        let mut ones = 0;
        for (position, bit) in bits.iter().enumerate() {
            assert_eq!((index.rank1(position), index.rank0(position)), (ones, position - ones), "{position} of {n}");
            let found = index.rank0_with_bit(position);
            assert_eq!((found.zeros, found.is_one), (position - ones, *bit), "{position} of {n}");
            ones += usize::from(*bit);
        }
        for position in [n, n + 1, n + 63, n + 511, usize::MAX] {
            assert_eq!((index.rank1(position), index.rank0(position)), (ones, n - ones), "{position} of {n}");
        }
    }
}

#[test]
fn ranks_of_a_list_beyond_the_caches() {
    // from 2^25 bits on, ranks go limb by limb
    let limbs: Plain<u64> = (0..(1 << 19) + 11).map(|k: u64| k.wrapping_mul(0x9E37_79B9_7F4A_7C15)).collect();
    let Ok(index) = RsVec::from_bit_vec(BitVec::from_limbs(Global, &limbs).ok().unwrap()) else { panic!() };
    let mut before = 0;
    for (k, limb) in limbs.iter().enumerate() {
        // some blocks at the beginning of a superblock, and the last ones
        for bit in 0..if k % 4096 < 9 || k + 20 > limbs.len() { 64 } else { 0 } {
            let (position, ones) = (64 * k + bit, before + (limb & ((1 << bit) - 1)).count_ones() as usize);
            assert_eq!((index.rank1(position), index.rank0(position)), (ones, position - ones), "{position}");
        }
        before += limb.count_ones() as usize;
    }
    assert_eq!((index.rank1(usize::MAX), index.rank0(64 * limbs.len())), (before, 64 * limbs.len() - before));
}

#[test]
fn elements_whose_product_wraps_are_too_long() {
    assert_eq!(BitVec::pack_sequence_u8(Global, &[1, 1], 1 << 63).err(), Some(GrowError::TooLong));
    assert_eq!(BitVec::pack_sequence_u64(Global, &[1; 4], 1 << 62).err(), Some(GrowError::TooLong));
}

#[test]
fn a_pair_of_selects_counts_one_query() {
    let bits = scattered(1000, 3);
    let index = RsVec::from_bit_vec(list(&bits)).ok().unwrap();
    let ones: Plain<usize> = (0..1000).filter(|it| bits[*it]).collect();
    for r in 0..ones.len() + 2 {
        let mut tally = Tally::new();
        let found = index.select1_pair_counted(r, &mut tally);
        let position = |r: usize| *ones.get(r).unwrap_or(&1000);
        assert_eq!((found.first, found.second, tally.rank_calls()), (position(r), position(r + 1), 1), "{r}");
    }
}

#[test]
fn a_copy_of_documents_has_their_costs() {
    let made = Postings::from_sorted(&[2, 4, 9], Vec::from_slice(Global, &[7, 5, 5]).ok().unwrap()).ok().unwrap();
    let copy = made.clone().ok().unwrap();
    assert!(copy.documents().iter().eq([2, 4, 9]) && copy.costs() == [7, 5, 5]);
    assert_eq!((copy.cheapest(2, 9), copy.cheapest(0, 3), copy.cheapest(5, 8)), (Some(4), Some(2), None));
}

/// A tree that takes what `Tree` gives it: a number of roots without children.
struct Roots(usize);

impl Tree for Roots {
    type NodeHandle = usize;

    fn root(&self) -> Option<usize> {
        (self.0 > 0).then_some(0)
    }

    fn parent(&self, _: usize) -> Option<usize> {
        None
    }

    fn first_child(&self, _: usize) -> Option<usize> {
        None
    }

    fn next_sibling(&self, node: usize) -> Option<usize> {
        (node + 1 < self.0).then_some(node + 1)
    }

    fn previous_sibling(&self, node: usize) -> Option<usize> {
        node.checked_sub(1)
    }

    fn last_child(&self, _: usize) -> Option<usize> {
        None
    }

    fn node_index(&self, node: usize) -> usize {
        node
    }

    fn node_handle(&self, index: usize) -> usize {
        index
    }

    fn is_leaf(&self, _: usize) -> bool {
        true
    }

    fn depth(&self, _: usize) -> u64 {
        0
    }

    fn size(&self) -> usize {
        self.0
    }
}

#[test]
fn a_tree_is_empty_only_without_nodes() {
    for size in 0..4 {
        assert_eq!(Roots(size).is_empty(), size == 0);
    }
}

#[test]
fn a_backward_search_looks_up_whole_bytes() {
    let bits = scattered(512, 11);
    let tree = BpTree::<512, Global>::from_bit_vector(list(&bits)).ok().unwrap();
    for i in 0..=512u64 {
        let mut tally = Tally::new();
        assert_eq!(tree.bwd_search_counted(i as usize, 1000, &mut tally), None);
        // each word takes one or two limbs, what is left of a byte one for each bit, and the step right before two
        assert!(tally.data_words() <= 2 * i.div_ceil(64) + 9, "{} from {i}", tally.data_words());
    }
}

#[test]
fn queries_of_symbols_ask_each_level_four_times() {
    let symbols: Plain<u64> = (0..5000).map(|k| k * k % 29).collect();
    let list = WaveletMatrix::from_slice(Global, &symbols, 5).ok().unwrap();
    let most = |call: &dyn Fn(&mut Tally)| {
        let mut tally = Tally::new();
        call(&mut tally);
        assert!(tally.rank_calls() <= 4 * 5 && tally.data_words() <= 8 * 4 * 5, "{}", tally.data_words());
    };
    for position in (0..5000).step_by(331) {
        most(&|tally| assert_eq!(list.get_u64_counted(position, tally), Some(symbols[position])));
        most(&|tally| {
            let count = symbols[..position].iter().filter(|it| **it == 5).count();
            assert_eq!(list.rank_u64_counted(position, 5, tally), Some(count));
        });
        most(&|tally| {
            let range = || symbols[position..].iter().copied();
            assert_eq!(list.range_min_u64_counted(position..5000, tally), range().min());
            let least = range().filter(|it| *it >= 6).min();
            assert_eq!(list.successor_u64_counted(position..5000, 6, &mut Tally::new()), least);
        });
    }
}

#[test]
fn a_select_bisects_superblocks() {
    let ones = [0, 100 * 8192 + 5, 150 * 8192 + 9];
    let bits: Plain<bool> = (0..160 * 8192).map(|it| ones.contains(&it)).collect();
    let index = RsVec::from_bit_vec(list(&bits)).ok().unwrap();
    for (r, position) in ones.into_iter().enumerate() {
        let mut tally = Tally::new();
        assert_eq!(index.select1_counted(r, &mut tally), position);
        // the digits of 160, and twelve
        assert!(tally.superblock_entries() <= 8 + 12, "{} for {r}", tally.superblock_entries());
    }
}
