//! Each panic of the documentation, with its message: where the proved layer requires something, no call that breaks it
//! gets there.
// Ranges that end before they start are asked for on purpose.
#![allow(clippy::reversed_empty_ranges)]

use std::cell::Cell;
use std::panic::{catch_unwind, set_hook, take_hook, AssertUnwindSafe};
use std::sync::Once;
use vers_vecs::reads::Tally;
use vers_vecs::{BinaryRmq, BitVec, BpTree, EliasFanoVec, FastRmq, RsVec, SparseRSVec, WaveletMatrix};

thread_local! {
    /// While a call of this thread is expected to panic: whether the panic names a line of this file.
    static IS_HERE: Cell<Option<bool>> = const { Cell::new(None) };
}

/// Notes whether an expected panic names the line of its caller, instead of printing it.
fn note_lines() {
    static NOTED: Once = Once::new();
    NOTED.call_once(|| {
        let print = take_hook();
        set_hook(Box::new(move |panic| {
            let is_here = panic.location().map_or(false, |line| line.file() == file!());
            IS_HERE.with(|last| match last.get() {
                Some(_) => last.set(Some(is_here)),
                None => print(panic),
            });
        }));
    });
}

/// Makes a call, and returns the message of its panic.
fn message<T>(call: impl FnOnce() -> T) -> String {
    note_lines();
    IS_HERE.with(|last| last.set(Some(false)));
    match catch_unwind(AssertUnwindSafe(call)).map(drop).map_err(|panic| panic.downcast::<String>()) {
        Ok(()) => "no panic".into(),
        Err(Ok(text)) => *text,
        Err(Err(panic)) => panic.downcast_ref::<&str>().map_or("another payload".into(), |text| text.to_string()),
    }
}

macro_rules! stops {
    ($($expected:literal: $call:expr;)*) => {
        $({
            let message = message(|| $call);
            let is_here = IS_HERE.with(Cell::take);
            assert!(message.contains($expected), "{}: {message}", stringify!($call));
            assert_eq!(is_here, Some(true), "{} names the line of its caller", stringify!($call));
        })*
    };
}

const FAR: usize = usize::MAX;

#[test]
fn lists_of_bits_stop() {
    let mut bits = BitVec::from_ones(70);
    stops! {
        "at most 64": bits.append_bits(1, 65);
        "at most 64": bits.append_bits_unchecked(1, FAR);
        "no bit at 70": bits.flip_bit(70);
        "no word has a bit at 128": bits.flip_bit_unchecked(128);
        "no word has a bit at 128": bits.set_unchecked(128, 1);
        "no word has a bit at 128": bits.get_unchecked(128);
        "no word has a bit at 64": BitVec::from_ones(64).get_unchecked(64);
        "no word has a bit": bits.is_bit_set_unchecked(FAR);
        "no word has a bit at 129": bits.get_bits_unchecked(70, 60);
        "no word has a bit": bits.get_bits_unchecked(FAR, 2);
        "at most 64": bits.get_bits_unchecked(0, 65);
        "at most 64": bits.unpack_element_unchecked(0, 65);
        "no word has a bit": bits.unpack_element_unchecked(FAR, 64);
        "can't be split at 71": bits.clone().split_at_unchecked(71);
        "too many items": BitVec::from_zeros(FAR);
    }
    assert_eq!(bits.set(70, 1), Err("out of range"));
    assert_eq!(bits, BitVec::from_ones(70), "a call that panics changes nothing");
    assert_eq!((bits.get_bits_unchecked(1000, 0), bits.get_bits_unchecked(60, 20)), (0, (1 << 10) - 1));
    assert_eq!((bits.unpack_element_unchecked(3, 0), bits.unpack_element_unchecked(2, 32)), (0, 63));
    assert_eq!(
        (bits.get_unchecked(100), bits.is_bit_set_unchecked(127), bits.get_bits_unchecked(100, 20)),
        (0, false, 0)
    );
}

#[test]
fn masks_stop() {
    let (bits, mask) = (BitVec::from_ones(70), BitVec::from_zeros(70));
    let masked = bits.mask_or(&mask).unwrap();
    stops! {
        "no bit at 70": masked.get_unchecked(70);
        "no bit at 128": masked.is_bit_set_unchecked(128);
        "no 2 bits from 69 on": masked.get_bits_unchecked(69, 2);
        "no 65 bits from 0 on": masked.get_bits_unchecked(0, 65);
    }
    assert_eq!(masked.get_bits_unchecked(FAR, 0), 0);
    let text = bits.mask_and(&BitVec::new()).err().unwrap();
    assert_eq!(text, "mask cannot have different length than vector");
}

#[test]
fn indexed_bits_stop() {
    let bits = RsVec::from_bit_vec(BitVec::from_ones(70));
    stops! {
        "no bit at 70": bits.get_unchecked(70);
        "no bit at 70": bits.is_one_counted(70, &mut Tally::new());
        "no 2 bits from 69 on": bits.get_bits_unchecked(69, 2);
        "no 65 bits from 0 on": bits.get_bits_unchecked(0, 65);
        "bits from": bits.get_bits_unchecked(FAR, 64);
        "must ascend, and the one at position 1 isn't above the one before it": SparseRSVec::new(&[5, 5], 10);
        "position 1 is not below its limit": SparseRSVec::new(&[5, 10], 10);
        "no number at 2": EliasFanoVec::from_slice(&[5, 5]).get_unchecked(2);
        "must ascend": EliasFanoVec::from_slice(&[5, 4]);
        "at most 4": EliasFanoVec::from_slice(&[5]).predecessor_unchecked(4);
        "at least 6": EliasFanoVec::from_slice(&[5]).successor_unchecked(6);
    }
    assert_eq!(bits.get_bits_unchecked(70, 0), 0);
}

#[test]
fn minima_stop() {
    let values = vec![3, 1, 2];
    let (binary, fast) = (BinaryRmq::from_vec(values.clone()), FastRmq::from_vec(values));
    let mut tally = Tally::new();
    stops! {
        "no range from 1 to 3": binary.range_min(1, 3);
        "no range from 3 to 3": fast.range_min(3, 3);
        "from 2 to 1 is empty": fast.range_min(2, 1);
        "no range": binary.range_min_counted(0, FAR, &mut tally);
        "no range": fast.range_min_counted(0, 3, &mut tally);
        "is empty": binary.range_min_item(2, 1);
        "no range": binary.range_min_item_counted(0, 3, &mut tally);
        "no value at 3": binary.item_counted(3, &mut tally);
        "from 2 to 0 is empty": fast.range_min_with_range(2..1);
        "the range to position 0 is empty": binary.range_min_with_range(0..0);
        "from 2 to 0 is empty": fast.range_min_with_range_counted(2..1, &mut tally);
        "no values": BinaryRmq::default().range_min_with_range(..);
        "no values": FastRmq::default().range_min_with_range(0..=0);
    }
    use std::ops::Bound::{Excluded, Unbounded};
    assert_eq!(fast.range_min_with_range((Excluded(FAR), Unbounded)), 2);
    assert_eq!(binary.range_min_with_range((Excluded(1), Unbounded)), 2);
}

#[test]
fn symbols_stop() {
    let list = WaveletMatrix::from_slice(&[5, 1, 7], 3);
    let wide = WaveletMatrix::from_bit_vec(&BitVec::from_ones(130), 65);
    let narrow = BitVec::from_zeros(2);
    stops! {
        "can't have 0 bits": WaveletMatrix::from_bit_vec(&narrow, 0);
        "no multiple": WaveletMatrix::from_bit_vec(&BitVec::from_zeros(10), 3);
        "at most 64": WaveletMatrix::from_slice(&[1], 65);
        "at most 64": WaveletMatrix::from_bit_vec_pc(&BitVec::from_zeros(130), 65);
        "more bits": WaveletMatrix::from_slice_pc(&[8], 3);
        "can't have 0 bits": WaveletMatrix::from_slice_pc(&[0], 0);
        "no symbol at 3": list.get_value_unchecked(3);
        "no number at 3": list.get_u64_unchecked(3);
        "no number at 0": wide.get_u64_unchecked(0);
        "too few bits": list.rank_unchecked(3, &narrow);
        "too few bits": list.select_unchecked(3, &narrow);
        "reversed": list.rank_range_unchecked(2..1, &narrow);
        "reversed": list.rank_offset_u64_unchecked(2, 1, 0);
        "more than 64": wide.rank_u64_unchecked(0, 0);
        "more than 64": wide.rank_range_u64_unchecked(0..1, 0);
        "more than 64": wide.select_u64_unchecked(0, 0);
        "more than 64": wide.select_offset_u64_unchecked(0, 0, 0);
        "no such symbol": list.quantile_unchecked(0..3, 3);
        "no such symbol": list.get_sorted_unchecked(3);
        "no such symbol": list.range_min_unchecked(1..1);
        "no such symbol": list.range_max_unchecked(2..4);
        "no such symbol": list.range_median_unchecked(2..1);
        "no such number": list.quantile_u64_unchecked(0..3, 3);
        "no such number": wide.get_sorted_u64_unchecked(0);
        "no such number": list.range_min_u64_unchecked(1..1);
        "no such number": list.range_max_u64_unchecked(2..4);
        "no such number": wide.range_median_u64_unchecked(0..1);
        "different lengths": list.rank_u64_each(&mut [1], &[], 0);
        "different lengths": list.select_u64_each(&mut [], &[1], 0);
        "different lengths": list.quantile_u64_each(&mut [1, 2], &[0..1, 0..1, 0..1], 0);
        "different lengths": list.gathered_u64_each_counted(&mut [1], &[], 0, &mut Tally::new());
    }
    // positions past the end are left out
    assert_eq!((list.rank_u64_unchecked(9, 7), list.rank_range_u64_unchecked(3..9, 7)), (1, 0));
    assert_eq!((list.select_offset_u64_unchecked(9, 0, 7), list.select_u64_unchecked(1, 7)), (3, 3));
    let seven = BitVec::from_ones(4);
    assert_eq!((list.rank_unchecked(9, &seven), list.select_offset_unchecked(9, 0, &seven)), (1, 3));
}

#[test]
fn symbols_that_are_there_are_answered() {
    let list = WaveletMatrix::from_slice(&[5, 1, 7], 3);
    let five = BitVec::from_bits(&[1, 0, 1]);
    let fives = || [five.clone(), five.clone(), five.clone()];
    assert_eq!((list.rank_offset_unchecked(0, 9, &five), list.rank_offset_unchecked(1, 9, &five)), (1, 0));
    assert_eq!((list.select_offset_unchecked(0, 0, &five), list.select_offset_unchecked(1, 0, &five)), (0, 3));
    assert_eq!([list.get_value_unchecked(0), list.quantile_unchecked(0..3, 1), list.get_sorted_unchecked(1)], fives());
    let of_ranges = [list.range_min_unchecked(0..1), list.range_max_unchecked(0..2), list.range_median_unchecked(0..3)];
    assert_eq!(of_ranges, fives());
    let numbers = [list.get_u64_unchecked(0), list.quantile_u64_unchecked(0..3, 1), list.get_sorted_u64_unchecked(1)];
    assert_eq!(numbers, [5; 3]);
    let (least, greatest) = (list.range_min_u64_unchecked(0..1), list.range_max_u64_unchecked(0..2));
    assert_eq!((least, greatest, list.range_median_u64_unchecked(0..3)), (5, 5, 5));
}

#[test]
fn counted_calls_of_no_node_stop() {
    let tree: BpTree = BpTree::from_bit_vector(BitVec::from_bits(&[1, 1, 0, 0]));
    let open: BpTree = BpTree::from_bit_vector(BitVec::from_ones(4));
    let tally = &mut Tally::new();
    for (tree, node) in [(&tree, 2), (&tree, 4), (&tree, FAR), (&open, 0)] {
        stops! {
            "no such node": tree.parent_counted(node, tally);
            "no such node": tree.first_child_counted(node, tally);
            "no such node": tree.last_child_counted(node, tally);
            "no such node": tree.next_sibling_counted(node, tally);
            "no such node": tree.previous_sibling_counted(node, tally);
            "no such node": tree.is_leaf_counted(node, tally);
            "no such node": tree.node_index_counted(node, tally);
            "no such node": tree.depth_counted(node, tally);
            "no such node": tree.subtree_size_counted(node, tally);
            "no such node": tree.level_ancestor_counted(node, 1, tally);
            "no such node": tree.level_next_counted(node, tally);
            "no such node": tree.level_prev_counted(node, tally);
            "no such node": tree.is_ancestor_counted(0, node, tally);
            "no such node": tree.is_ancestor_counted(node, 0, tally);
        }
        assert_eq!((tree.children(node).next(), tree.rev_children(node).next()), (None, None));
        assert_eq!((tree.subtree_iter(node).next(), tree.subtree_post_iter(node).next()), (None, None));
    }
    #[cfg(debug_assertions)]
    stops! { "no position 4": tree.excess(4); }
    stops! {
        "no such node": open.level_leftmost_counted(0, tally);
        "no such node": open.level_rightmost_counted(0, tally);
        "no position 4": tree.excess_counted(4, tally);
    }
    assert_eq!((open.dfs_post_iter().next(), open.dfs_iter().count()), (None, 4));
    assert_eq!((open.dfs_post_iter().len(), open.subtree_iter(0).len()), (0, 0));
}
