//! Each form that counts what it reads answers as the call that it is named after, and counts something.
use crate::plain::Random;
use vers_vecs::postings::Postings;
use vers_vecs::reads::Tally;
use vers_vecs::text::TextIndex;
use vers_vecs::{BinaryRmq, BitVec, BpTree, EliasFanoVec, FastRmq, RsVec, SparseRSVec, WaveletMatrix};
use vers_vecs::{IsAncestor, LevelTree, SubtreeSize, Tree};

fn sum(tally: &Tally) -> u64 {
    let items =
        [tally.data_words(), tally.block_entries(), tally.superblock_entries(), tally.low_parts(), tally.rank_calls()];
    items.iter().sum::<u64>() + tally.items() + tally.blocks() + tally.nodes() + tally.chunks()
}

/// Makes both calls.
macro_rules! agree {
    ($list:ident: $($call:ident, $counted:ident($($arg:expr),*);)*) => {
        $({
            let mut tally = Tally::new();
            assert_eq!($list.$call($($arg),*), $list.$counted($($arg,)* &mut tally), stringify!($counted));
            assert!(sum(&tally) > 0, "{} counts nothing", stringify!($counted));
        })*
    };
}

/// Makes both calls, which replace the items of a slice.
macro_rules! replace {
    ($list:ident: $($call:ident, $counted:ident($items:expr $(, $arg:expr)*);)*) => {
        $({
            let (mut one, mut other, mut tally) = ($items, $items, Tally::new());
            $list.$call(&mut one $(, $arg)*);
            $list.$counted(&mut other $(, $arg)*, &mut tally);
            assert_eq!(one, other);
            assert!(sum(&tally) > 0, "{} counts nothing", stringify!($counted));
        })*
    };
}

#[test]
fn bits_are_counted() {
    let list = RsVec::from(BitVec::from_limbs(&Random::new(1).numbers(500, u64::MAX)));
    agree! { list:
        rank0, rank0_counted(7777);
        rank1, rank1_counted(7777);
        select0, select0_counted(7777);
        select1, select1_counted(7777);
        select0_pair, select0_pair_counted(777);
        select1_pair, select1_pair_counted(777);
        successor0, successor0_counted(777);
        successor1, successor1_counted(777);
        predecessor0, predecessor0_counted(777);
        predecessor1, predecessor1_counted(777);
        get, get_counted(777);
        get_bits, get_bits_counted(777, 50);
    }
    replace! { list:
        select0_each, select0_each_counted([1, 1 << 50, 900]);
        select1_each, select1_each_counted([1, 1 << 50, 900]);
    }
    let pair = list.select1_pair(777);
    assert_eq!((pair.first, pair.second), (list.select1(777), list.select1(778)));
    let mut tally = Tally::new();
    assert_eq!(list.is_one_counted(3, &mut tally), list.get(3) == Some(1));
    assert_eq!(list.iter1().next_counted(&mut tally), list.iter1().next());
    assert_eq!(list.iter0().nth_back_counted(9, &mut tally), list.iter0().nth_back(9));
    assert_eq!(list.bit_set_iter1().next_counted(&mut tally), list.bit_set_iter1().next());
    assert!(tally.chunks() == 1 && sum(&tally) > 3);
    let ones: Vec<u64> = list.iter1().map(|it| it as u64).collect();
    let list = SparseRSVec::new(&ones, 40_000);
    agree! { list:
        is_set, is_set_counted(777);
        get, get_counted(777);
        select1, select1_counted(777);
        rank1, rank1_counted(777);
        rank0, rank0_counted(777);
    }
    let list = EliasFanoVec::from_slice(&ones);
    agree! { list:
        get, get_counted(777);
        select, select_counted(777);
        delta, delta_counted(777);
        rank, rank_counted(777);
        has, has_counted(777);
        predecessor, predecessor_counted(777);
        successor, successor_counted(777);
    }
    replace! { list:
        rank_each, rank_each_counted([1, 1 << 50, 900]);
        get_each, get_each_counted([1, 1 << 50, 900], 7);
        predecessor_each, predecessor_each_counted([0, 1 << 50, 900], 7);
        successor_each, successor_each_counted([1, 1 << 50, 900], 7);
    }
    assert_eq!(list.iter().next_back_counted(&mut tally), list.iter().last());
}

#[test]
fn symbols_are_counted() {
    let numbers = Random::new(2).numbers(700, 8);
    let list = WaveletMatrix::from_slice(&numbers, 3);
    let symbol = &list.get_value(5).unwrap();
    agree! { list:
        get_value, get_value_counted(7);
        get_u64, get_u64_counted(7);
        rank_range, rank_range_counted(3..500, symbol);
        rank_offset, rank_offset_counted(3, 500, symbol);
        rank, rank_counted(500, symbol);
        rank_range_u64, rank_range_u64_counted(3..500, 6);
        rank_offset_u64, rank_offset_u64_counted(3, 500, 6);
        rank_u64, rank_u64_counted(500, 6);
        select_offset, select_offset_counted(3, 9, symbol);
        select, select_counted(9, symbol);
        select_offset_u64, select_offset_u64_counted(3, 9, 6);
        select_u64, select_u64_counted(9, 6);
        get_gathered_u64, get_gathered_u64_counted(7);
        gathered_u64, gathered_u64_counted(7, 6);
        gathered_range_u64, gathered_range_u64_counted(3..500, 6);
        quantile, quantile_counted(3..500, 70);
        quantile_u64, quantile_u64_counted(3..500, 70);
        get_sorted, get_sorted_counted(70);
        get_sorted_u64, get_sorted_u64_counted(70);
        range_min, range_min_counted(3..500);
        range_min_u64, range_min_u64_counted(3..500);
        range_max, range_max_counted(3..500);
        range_max_u64, range_max_u64_counted(3..500);
        range_median, range_median_counted(3..500);
        range_median_u64, range_median_u64_counted(3..500);
        predecessor, predecessor_counted(3..500, symbol);
        predecessor_u64, predecessor_u64_counted(3..500, 6);
        successor, successor_counted(3..500, symbol);
        successor_u64, successor_u64_counted(3..500, 6);
    }
    replace! { list:
        get_u64_each, get_u64_each_counted([7, 900], 5);
        rank_u64_each, rank_u64_each_counted([7, 900], &[1, 1], 5);
        select_u64_each, select_u64_each_counted([7, 900], &[1, 1], 5);
        quantile_u64_each, quantile_u64_each_counted([7, 900], &[3..600, 3..600], 5);
        gathered_u64_each, gathered_u64_each_counted([7, 900], &[1, 1], 5);
    }
    assert_eq!(list.get_gathered_u64(7).map(|it| it.symbol), list.get_u64(7));
    let tally = &mut Tally::new();
    assert_eq!(list.iter().nth_counted(7, tally), list.get_value(7));
    assert_eq!(list.iter_sorted_u64().unwrap().next_counted(tally), list.get_sorted_u64(0));
    assert!(sum(tally) > 0);
}

#[test]
fn trees_are_counted() {
    let mut bits = vec![1u8];
    (0..400).for_each(|_| bits.extend([1, 1, 0, 1, 0, 0]));
    bits.push(0);
    let tree: BpTree<64> = BpTree::from_bit_vector(BitVec::from_bits(&bits));
    agree! { tree:
        fwd_search, fwd_search_counted(7, 1);
        bwd_search, bwd_search_counted(77, 1);
        close, close_counted(0);
        open, open_counted(2);
        enclose, enclose_counted(7);
        excess, excess_counted(70);
        is_open, is_open_counted(7);
        node_handle, node_handle_counted(70);
        has_node, has_node_counted(7);
        is_balanced, is_balanced_counted();
        parent, parent_counted(7);
        first_child, first_child_counted(7);
        last_child, last_child_counted(7);
        next_sibling, next_sibling_counted(7);
        previous_sibling, previous_sibling_counted(7);
        is_leaf, is_leaf_counted(7);
        node_index, node_index_counted(7);
        depth, depth_counted(8);
        subtree_size, subtree_size_counted(7);
        is_ancestor, is_ancestor_counted(0, 7);
        level_ancestor, level_ancestor_counted(8, 2);
        level_next, level_next_counted(7);
        level_prev, level_prev_counted(7);
        level_leftmost, level_leftmost_counted(2);
        level_rightmost, level_rightmost_counted(2);
    }
    let tally = &mut Tally::new();
    assert_eq!(tree.children(0).next_counted(tally), tree.first_child(0));
    assert_eq!(tree.dfs_iter().nth_counted(3, tally), Some(tree.node_handle(3)));
    assert!(sum(tally) > 0);
}

#[test]
fn other_structures_are_counted() {
    let values = Random::new(3).numbers(700, 50);
    let list = BinaryRmq::from_vec(values.clone());
    agree! { list:
        range_min, range_min_counted(3, 600);
        range_min_with_range, range_min_with_range_counted(3..);
        range_min_item, range_min_item_counted(3, 600);
    }
    let least = list.range_min_item(3, 600);
    assert_eq!((least.position, least.value), (list.range_min(3, 600), values[list.range_min(3, 600)]));
    assert_eq!(list.item_counted(7, &mut Tally::new()), values[7]);
    let list = FastRmq::from_vec(values);
    agree! { list:
        range_min, range_min_counted(3, 600);
        range_min_with_range, range_min_with_range_counted(3..=590);
    }
    let list = Postings::from_sorted(&[3, 6, 8], &[5, 1, 2]).unwrap();
    let other = &list.clone();
    agree! { list:
        contains, contains_counted(6);
        rank, rank_counted(6);
        next_at_least, next_at_least_counted(4);
        cheapest, cheapest_counted(4, 9);
        intersect, intersect_counted(other);
    }
    let text = TextIndex::from_slice(&[1, 2, 1, 2, 3], 2).unwrap();
    agree! { text:
        count, count_counted(&[1, 2]);
        contains, contains_counted(&[1, 2]);
        extract, extract_counted(1..4);
        first_places, first_places_counted(&[1, 2], 1);
    }
}
