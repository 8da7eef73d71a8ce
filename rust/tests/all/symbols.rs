//! Lists of symbols, of few bits and of many, against plain lists.
use crate::plain::Random;
use vers_vecs::{BitVec, WaveletMatrix};

/// Numbers as symbols of `width` bits: above 64 of them, in the high bits.
fn symbol(number: u64, width: usize) -> BitVec {
    let mut bits = BitVec::from_zeros(width.saturating_sub(64));
    bits.append_bits(number, width.min(64));
    bits
}

/// A list for numbers, and the same in symbols of `width` bits.
fn made(numbers: &[u64], width: usize) -> WaveletMatrix {
    let mut bits = BitVec::new();
    numbers.iter().for_each(|&number| bits.extend_bitvec(&symbol(number, width)));
    WaveletMatrix::from_bit_vec(&bits, width as u16)
}

#[test]
fn symbols_are_counted_found_and_sorted() {
    let mut random = Random::new(1);
    for (width, bound) in [(1, 2), (3, 8), (8, 20), (33, 9), (64, u64::MAX), (65, 5), (127, 1 << 50)] {
        for length in [0, 1, 2, 70, 600] {
            let numbers = random.numbers(length, bound);
            let list = made(&numbers, width);
            assert_eq!((list.len(), list.bits_per_element()), (length, width));
            assert!(list.iter().eq(numbers.iter().map(|&number| symbol(number, width))));
            let mut sorted = numbers.clone();
            sorted.sort_unstable();
            assert!(list.iter_sorted().eq(sorted.iter().map(|&number| symbol(number, width))));
            for _ in 0..200 {
                asked(&mut random, &numbers, &list);
            }
        }
    }
}

#[test]
fn many_symbols_are_asked_at_once() {
    let mut random = Random::new(5);
    for (width, bound) in [(3, 8), (8, 20), (64, u64::MAX), (65, 5)] {
        let length = 300;
        let numbers = random.numbers(length, bound);
        let list = made(&numbers, width);
        let ends = random.numbers(500, length as u64 + 5);
        let symbols: Vec<u64> = random.numbers(500, length as u64).iter().map(|&it| numbers[it as usize]).collect();
        let starts = random.numbers(500, length as u64 + 5);
        let ranges: Vec<_> = ends.iter().zip(&starts).map(|(&a, &b)| a as usize..b as usize).collect();
        let answered = |each: &dyn Fn(&mut [u64])| {
            let mut answers = ends.clone();
            each(&mut answers);
            answers
        };
        let single = |one: &dyn Fn(usize, usize) -> Option<u64>| {
            ends.iter().enumerate().map(|(at, &end)| one(at, end as usize).unwrap_or(9)).collect::<Vec<_>>()
        };
        let wide = |count: Option<usize>| count.map(|it| it as u64);
        assert_eq!(answered(&|it| list.get_u64_each(it, 9)), single(&|_, end| list.get_u64(end)));
        let rank = |at: usize, end| wide(list.rank_u64(end, symbols[at]));
        assert_eq!(answered(&|it| list.rank_u64_each(it, &symbols, 9)), single(&rank));
        let select = |at: usize, end| wide(list.select_u64(end, symbols[at]));
        assert_eq!(answered(&|it| list.select_u64_each(it, &symbols, 9)), single(&select));
        let quantile = |at: usize, end| list.quantile_u64(ranges[at].clone(), end);
        assert_eq!(answered(&|it| list.quantile_u64_each(it, &ranges, 9)), single(&quantile));
    }
}

/// Compares the answers for some range and symbol.
fn asked(random: &mut Random, numbers: &[u64], list: &WaveletMatrix) {
    let (length, width) = (numbers.len(), list.bits_per_element());
    let (start, end) = (random.below(length as u64 + 2) as usize, random.below(length as u64 + 2) as usize);
    let k = random.below(length as u64 + 2) as usize;
    let number = match numbers.get(k) {
        Some(&number) => number ^ random.below(2),
        None => 1,
    };
    let wanted = symbol(number, width);
    let range = numbers.get(start..end);
    let positions = |from: usize| (from..length).filter(move |&position| numbers[position] == number);
    let symbol = |number: Option<&u64>| number.map(|&number| symbol(number, width));

    assert_eq!(list.get_value(k), symbol(numbers.get(k)));
    let held = |list: &[u64]| list.iter().filter(|&&it| it == number).count();
    let counted = range.filter(|_| start < length).map(held);
    assert_eq!(list.rank_range(start..end, &wanted), counted);
    assert_eq!(list.rank_offset(start, end, &wanted), counted);
    assert_eq!(list.rank(end, &wanted), numbers.get(..end).map(held));
    assert_eq!(list.select(k, &wanted), positions(0).nth(k));
    assert_eq!(list.select_offset(start, k % 3, &wanted), positions(start).nth(k % 3));
    let by_size = range.map(|range| {
        let mut range = range.to_vec();
        range.sort_unstable();
        range
    });
    let elements = by_size.as_deref().unwrap_or(&[]);
    assert_eq!(list.quantile(start..end, k), symbol(elements.get(k)));
    assert_eq!(list.range_min(start..end), symbol(elements.first()));
    assert_eq!(list.range_max(start..end), symbol(elements.last()));
    assert_eq!(list.range_median(start..end), symbol(elements.get(elements.len().saturating_sub(1) / 2)));
    let (below, above) = (elements.iter().rev().find(|&&it| it <= number), elements.iter().find(|&&it| it >= number));
    assert_eq!(list.predecessor(start..end, &wanted), symbol(below));
    assert_eq!(list.successor(start..end, &wanted), symbol(above));

    let is_narrow = width <= 64;
    assert_eq!(list.get_u64(k), numbers.get(k).copied().filter(|_| is_narrow));
    assert_eq!(list.rank_range_u64(start..end, number), counted.filter(|_| is_narrow));
    assert_eq!(list.rank_u64(end, number), numbers.get(..end).map(held).filter(|_| is_narrow));
    assert_eq!(list.select_u64(k, number), positions(0).nth(k).filter(|_| is_narrow));
    assert_eq!(list.select_offset_u64(start, 1, number), positions(start).nth(1).filter(|_| is_narrow));
    assert_eq!(list.quantile_u64(start..end, k), elements.get(k).copied().filter(|_| is_narrow));
    assert_eq!(list.range_max_u64(start..end), elements.last().copied().filter(|_| is_narrow));
    assert_eq!(list.predecessor_u64(start..end, number), below.copied().filter(|_| is_narrow));
    assert_eq!(list.successor_u64(start..end, number), above.copied().filter(|_| is_narrow));
    assert_eq!(list.iter_u64().is_some(), is_narrow);
}

#[test]
fn makers_agree() {
    let mut random = Random::new(2);
    let numbers = random.numbers(300, 1 << 9);
    let packed = BitVec::pack_sequence_u64(&numbers, 9);
    for list in [
        WaveletMatrix::from_slice(&numbers, 9),
        WaveletMatrix::from_slice_pc(&numbers, 9),
        WaveletMatrix::from_bit_vec(&packed, 9),
        WaveletMatrix::from_bit_vec_pc(&packed, 9),
    ] {
        assert!(list.iter_u64().unwrap().eq(numbers.iter().copied()));
        let mut sorted = numbers.clone();
        sorted.sort_unstable();
        assert!(list.into_iter_sorted_u64().unwrap().eq(sorted));
    }
    assert!(WaveletMatrix::from_slice(&numbers, 4).into_iter_u64().unwrap().eq(numbers.iter().map(|it| it % 16)));
    assert!(WaveletMatrix::from_slice(&numbers, 0).is_empty() && WaveletMatrix::from_slice_pc(&[], 0).is_empty());
}

#[test]
fn symbols_of_another_width_are_none() {
    let list = WaveletMatrix::from_slice(&[1, 2, 3], 4);
    let other = BitVec::from_zeros(5);
    assert_eq!((list.rank(1, &other), list.select(0, &other)), (None, None));
    assert_eq!((list.predecessor(0..3, &other), list.successor(0..3, &other)), (None, None));
    // of a number the low digits count
    assert_eq!((list.rank_u64(3, 17), list.select_u64(0, 18)), (Some(1), Some(1)));
}

#[test]
#[should_panic(expected = "multiple")]
fn broken_symbols_are_refused() {
    let _ = WaveletMatrix::from_bit_vec(&BitVec::from_zeros(10), 3);
}

#[test]
#[should_panic(expected = "more bits")]
fn numbers_too_great_for_counting_are_refused() {
    let _ = WaveletMatrix::from_slice_pc(&[8], 3);
}

#[test]
fn integers_of_each_type_count_by_their_low_bits() {
    fn symbols<N: vers_vecs::wavelet::Integer>(numbers: &[N], width: u16) -> Vec<u64> {
        let list = WaveletMatrix::from_integers(numbers, width);
        assert_eq!(list.bits_per_element(), usize::from(width));
        (0..list.len()).filter_map(|position| list.get_u64(position)).collect()
    }
    assert_eq!(symbols(&[200_u8, 7, 255], 7), [72, 7, 127]);
    assert_eq!(symbols(&[300_u16, 7, 65535], 9), [300, 7, 511]);
    assert_eq!(symbols(&[70000_u32, 7, u32::MAX], 32), [70000, 7, 4294967295]);
    assert_eq!(symbols(&[u64::MAX, 7], 64), [u64::MAX, 7]);
    assert_eq!(symbols(&[200_u8, 7], 64), [200, 7]);
    assert_eq!(symbols(&[200_u8, 7], 0), []);
}

#[test]
#[should_panic(expected = "at most 64 bits")]
fn integers_of_more_than_64_bits_are_refused() {
    let _ = WaveletMatrix::from_integers(&[1_u8], 65);
}
