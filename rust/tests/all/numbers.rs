//! Ascending lists, and the least of ranges, against plain lists.
use crate::plain::Random;
use std::ops::RangeBounds;
use vers_vecs::{BinaryRmq, EliasFanoVec, FastRmq};

#[test]
fn elements_are_found() {
    let mut random = Random::new(1);
    for (length, bound) in [(0, 1), (1, 1), (1, 1 << 40), (200, 50), (500, 10_000), (300, u64::MAX)] {
        let mut elements = random.numbers(length, bound);
        elements.sort_unstable();
        let list = EliasFanoVec::from_slice(&elements);
        assert!(list.iter().eq(elements.iter().copied()));
        assert!(list.clone().into_iter().rev().eq(elements.iter().rev().copied()));
        assert_eq!(list.iter().min(), elements.first().copied());
        assert_eq!(list.iter().max(), elements.last().copied());
        for position in 0..length + 2 {
            assert_eq!(list.get(position), elements.get(position).copied());
            let before = if position == 0 { Some(&0) } else { elements.get(position - 1) };
            assert_eq!(list.delta(position), elements.get(position).zip(before).map(|(it, before)| it - before));
        }
        let near = elements.iter().flat_map(|&it| [it.saturating_sub(1), it, it.saturating_add(1)]);
        for number in near.chain(random.numbers(50, bound)).chain([0, u64::MAX]) {
            let below = elements.partition_point(|&it| it < number);
            assert_eq!(list.rank(number), below as u64);
            assert_eq!(list.has(number), elements.contains(&number));
            assert_eq!(list.successor(number), elements.get(below).copied());
            assert_eq!(list.predecessor(number), elements.iter().rev().find(|&&it| it <= number).copied());
        }
    }
}

#[test]
fn ranges_of_values_have_their_elements() {
    use std::ops::Bound::{Excluded, Included, Unbounded};
    let mut random = Random::new(3);
    for (length, bound) in [(0, 1), (1, 9), (60, 20), (60, u64::MAX)] {
        let mut elements = random.numbers(length, bound);
        elements.sort_unstable();
        let list = EliasFanoVec::from_slice(&elements);
        let ends: Vec<u64> = random.numbers(8, bound).into_iter().chain([0, 5, u64::MAX]).collect();
        let bounds = || ends.iter().flat_map(|&end| [Included(end), Excluded(end)]).chain([Unbounded]);
        for range in bounds().flat_map(|start| bounds().map(move |end| (start, end))) {
            let expected: Vec<u64> = elements.iter().copied().filter(|it| range.contains(it)).collect();
            assert_eq!(list.range(range).len(), expected.len(), "{range:?} of {elements:?}");
            assert!(list.range(range).eq(expected.iter().copied()), "{range:?} of {elements:?}");
            assert!(list.range(range).rev().eq(expected.iter().rev().copied()), "{range:?} of {elements:?}");
        }
    }
}

#[test]
fn many_elements_are_found_at_once() {
    let mut random = Random::new(3);
    for (length, bound) in [(0, 1), (1, 9), (300, 400), (1000, 1 << 40)] {
        let mut elements = random.numbers(length, bound);
        elements.sort_unstable();
        let list = EliasFanoVec::from_slice(&elements);
        let positions: Vec<u64> = (0..length as u64 + 3).rev().collect();
        let mut answers = positions.clone();
        list.get_each(&mut answers, 77);
        assert!(positions.iter().map(|&it| list.get(it as usize).unwrap_or(77)).eq(answers));
        let numbers = random.numbers(500, bound + 2);
        let answered = |each: &dyn Fn(&mut [u64])| {
            let mut answers = numbers.clone();
            each(&mut answers);
            answers
        };
        let single = |one: &dyn Fn(u64) -> u64| numbers.iter().map(|&it| one(it)).collect::<Vec<_>>();
        assert_eq!(answered(&|it| list.rank_each(it)), single(&|it| list.rank(it)));
        assert_eq!(answered(&|it| list.predecessor_each(it, 7)), single(&|it| list.predecessor(it).unwrap_or(7)));
        assert_eq!(answered(&|it| list.successor_each(it, 7)), single(&|it| list.successor(it).unwrap_or(7)));
    }
}

#[test]
#[should_panic(expected = "must ascend")]
fn falling_numbers_are_refused() {
    let _ = EliasFanoVec::from_slice(&[1, 3, 2]);
}

#[test]
#[should_panic(expected = "at most 4")]
fn no_predecessor_stops() {
    let _ = EliasFanoVec::from_slice(&[5]).predecessor_unchecked(4);
}

#[test]
fn least_values_are_found() {
    let mut random = Random::new(2);
    for (length, bound) in [(1, 5), (2, 2), (130, 4), (700, 1 << 60), (1500, 3)] {
        let values = random.numbers(length, bound);
        let (fast, binary) = (FastRmq::from_vec(values.clone()), BinaryRmq::from(values.clone()));
        assert_eq!((fast.len(), &*fast, &*binary), (length, &values, &values));
        for _ in 0..2000 {
            let (i, j) = (random.below(length as u64) as usize, random.below(length as u64) as usize);
            let (i, j) = (i.min(j), i.max(j));
            let least = (i..=j).min_by_key(|&position| values[position]).unwrap();
            assert_eq!((fast.range_min(i, j), binary.range_min(i, j)), (least, least));
            assert_eq!((fast.range_min_with_range(i..=j), binary.range_min_with_range(i..j + 1)), (least, least));
        }
        let least = (0..length).min_by_key(|&position| values[position]).unwrap();
        assert_eq!((fast.range_min_with_range(..), binary.range_min_with_range(..length + 9)), (least, least));
    }
}

#[test]
#[should_panic(expected = "the range from 2 to 1 is empty")]
fn reversed_ranges_stop() {
    let _ = FastRmq::from_vec(vec![1, 2, 3]).range_min(2, 1);
}

#[test]
#[should_panic(expected = "no range from 1 to 3")]
fn ranges_past_the_end_stop() {
    let _ = BinaryRmq::from_vec(vec![1, 2, 3]).range_min(1, 3);
}

#[test]
fn no_values_have_no_range() {
    let (fast, binary) = (FastRmq::from_vec(Vec::new()), BinaryRmq::from_vec(Vec::new()));
    assert!(fast.is_empty() && binary.is_empty());
    assert!(std::panic::catch_unwind(|| fast.range_min_with_range(..)).is_err());
}
