//! Lists of bits against plain lists.
use crate::plain::Random;
use std::collections::HashSet;
use vers_vecs::{BitVec, RsVec, SparseRSVec};

const LENGTHS: [usize; 12] = [0, 1, 2, 63, 64, 65, 127, 128, 500, 512, 513, 9000];

/// Bits of a length, of which one in `share` is a one.
fn bits(random: &mut Random, length: usize, share: u64) -> Vec<u64> {
    (0..length).map(|_| (random.below(share) == 0).into()).collect()
}

/// Returns the positions of a bit.
fn positions(bits: &[u64], bit: u64) -> Vec<usize> {
    (0..bits.len()).filter(|&position| bits[position] == bit).collect()
}

#[test]
fn bits_are_ranked_and_selected() {
    let mut random = Random::new(1);
    for length in LENGTHS {
        for share in [1, 2, 50] {
            let plain = bits(&mut random, length, share);
            let list = RsVec::from_bit_vec(BitVec::from_bits_u64(&plain));
            let (zeros, ones) = (positions(&plain, 0), positions(&plain, 1));
            assert_eq!(list.len(), length);
            for position in (0..length + 3).step_by(1 + length / 300) {
                let ones_before = ones.partition_point(|&one| one < position);
                let zeros_before = zeros.partition_point(|&zero| zero < position);
                assert_eq!(list.get(position), plain.get(position).copied());
                assert_eq!((list.rank0(position), list.rank1(position)), (zeros_before, ones_before));
                assert_eq!(list.select0(position), zeros.get(position).copied().unwrap_or(length));
                assert_eq!(list.select1(position), ones.get(position).copied().unwrap_or(length));
                let is_there = position < length;
                let after =
                    |positions: &[usize]| positions.iter().find(|&&it| it > position && is_there).map(|&it| it as u64);
                let before =
                    |positions: &[usize]| positions.iter().rev().find(|&&it| it < position).map(|&it| it as u64);
                assert_eq!((list.successor0(position), list.successor1(position)), (after(&zeros), after(&ones)));
                assert_eq!((list.predecessor0(position), list.predecessor1(position)), (before(&zeros), before(&ones)));
                for count in [0, 1, 7, 63, 64, 65] {
                    let wanted = (count <= 64 && position + count <= length)
                        .then(|| (0..count).map(|offset| plain[position + offset] << offset).sum());
                    assert_eq!(list.get_bits(position, count), wanted, "{count} bits from {position} on");
                }
            }
            assert!(list.iter().eq(plain.iter().copied()) && list.iter().rev().eq(plain.iter().rev().copied()));
            assert!(list.iter0().eq(zeros.iter().copied()) && list.iter1().eq(ones.iter().copied()));
            assert!(list.clone().into_iter1().rev().eq(ones.iter().rev().copied()));
            assert_eq!((list.zeros(), list.ones()), (zeros.len(), ones.len()));
            let each: Vec<usize> = (0..length + 3).rev().collect();
            let answers = |query: fn(&RsVec, &mut [usize])| {
                let mut numbers = each.clone();
                query(&list, &mut numbers);
                numbers
            };
            let single =
                |query: fn(&RsVec, usize) -> usize| each.iter().map(|&it| query(&list, it)).collect::<Vec<_>>();
            assert_eq!(answers(RsVec::rank0_each), single(RsVec::rank0));
            assert_eq!(answers(RsVec::rank1_each), single(RsVec::rank1));
            assert_eq!(answers(RsVec::select0_each), single(RsVec::select0));
            assert_eq!(answers(RsVec::select1_each), single(RsVec::select1));
            assert_eq!(list.into_bit_vec(), BitVec::from_bits_u64(&plain));
        }
    }
}

#[test]
fn equal_lists_are_equal() {
    let mut random = Random::new(2);
    for length in LENGTHS.into_iter().filter(|&length| length > 0) {
        for share in [1, 2, 50] {
            let plain = BitVec::from_bits_u64(&bits(&mut random, length, share));
            let mut other = plain.clone();
            other.flip_bit(random.below(length as u64) as usize);
            let (list, same, other) = (RsVec::from(plain.clone()), RsVec::from(plain.clone()), RsVec::from(other));
            assert!(list == same && list.full_equals(&same));
            assert!(list.sparse_equals::<true>(&same) && list.sparse_equals::<false>(&same));
            assert!(list != other && !list.full_equals(&other));
            assert!(!list.sparse_equals::<true>(&other) && !list.sparse_equals::<false>(&other));
        }
    }
}

#[test]
fn sparse_bits_are_found() {
    let mut random = Random::new(3);
    for length in LENGTHS {
        let plain = bits(&mut random, length, 20);
        let list = BitVec::from_bits_u64(&plain);
        assert_eq!(SparseRSVec::from(list.clone()), SparseRSVec::from(&list));
        for (wanted, sparse) in [(1, SparseRSVec::from_bitvec(&list)), (0, SparseRSVec::from(&list))] {
            let ones = positions(&plain, wanted);
            assert_eq!(sparse.len(), length as u64);
            assert!(sparse.iter1().eq(ones.iter().map(|&one| one as u64)));
            for position in 0..length + 2 {
                let before = ones.partition_point(|&one| one < position);
                let is_set = plain.get(position).map(|&bit| bit == wanted);
                assert_eq!(
                    (sparse.is_set(position as u64), sparse.get(position as u64)),
                    (is_set, is_set.map(u64::from))
                );
                let or_zero = is_set.unwrap_or(false);
                assert_eq!(sparse.is_set_unchecked(position as u64), or_zero);
                assert_eq!(sparse.get_unchecked(position as u64), u64::from(or_zero));
                assert_eq!(sparse.rank1(position as u64), before as u64);
                assert_eq!(sparse.rank0(position as u64), (position.min(length) - before) as u64);
                assert_eq!(sparse.select1(position), ones.get(position).copied().unwrap_or(length) as u64);
            }
        }
    }
}

#[test]
fn bits_change() {
    let mut random = Random::new(4);
    let (mut list, mut plain) = (BitVec::new(), Vec::new());
    for step in 0..20_000 {
        let (number, position) = (random.number(), random.below(plain.len() as u64 + 1) as usize);
        match random.below(8) {
            0 => {
                list.append_bit(number);
                plain.push(number & 1);
            }
            1 | 2 => {
                let count = random.below(65) as usize;
                let append = [BitVec::append_bits, BitVec::append_bits_unchecked][position % 2];
                append(&mut list, number, count);
                plain.extend((0..count).map(|offset| number >> offset & 1));
            }
            3 => {
                list.append_word(number);
                plain.extend((0..64).map(|offset| number >> offset & 1));
            }
            4 => {
                assert_eq!(list.set(position, number).is_ok(), position < plain.len());
                plain.get_mut(position).into_iter().for_each(|bit| *bit = number & 1);
            }
            5 if position < plain.len() => {
                list.flip_bit(position);
                plain[position] ^= 1;
            }
            6 => {
                let count = random.below(120) as usize;
                list.drop_last(count);
                plain.truncate(plain.len().saturating_sub(count));
            }
            _ => {
                let count = random.below(70) as usize;
                let wanted = (1..=64).contains(&count) && position + count <= plain.len();
                let wanted = wanted.then(|| (0..count).map(|offset| plain[position + offset] << offset).sum());
                assert_eq!(list.get_bits(position, count), wanted);
            }
        }
        assert_eq!(list.len(), plain.len());
        assert_eq!(list.get(position), plain.get(position).copied());
        if step % 500 == 0 {
            assert!(list.iter().eq(plain.iter().copied()));
            assert_eq!(list.count_ones(), plain.iter().sum());
            assert_eq!(list, BitVec::from_bits_u64(&plain));
            let (before, from) = list.clone().split_at(position).unwrap();
            assert!(before.iter().chain(&from).eq(plain.iter().copied()));
            assert_eq!(list.clone().split_at(plain.len() + 1).unwrap_err(), list);
            let mut joined = before;
            joined.extend([from]);
            assert_eq!(joined, list);
        }
    }
}

#[test]
fn nothing_is_done_past_the_end() {
    let mut list = BitVec::from_zeros(70);
    list.set_unchecked(100, 1);
    assert_eq!(list, BitVec::from_zeros(70));
    list.flip_bit_unchecked(127);
    assert_eq!(list, BitVec::from_zeros(70));
}

#[test]
fn equal_bits_have_equal_hashes() {
    let mut list = BitVec::from_ones(64);
    list.append_bits(u64::MAX, 10);
    list.drop_last(10);
    let known: HashSet<BitVec> = [list].into();
    assert!(known.contains(&BitVec::from_ones(64)) && !known.contains(&BitVec::from_zeros(64)));
}

#[test]
fn masks_combine_bits() {
    let mut random = Random::new(5);
    for length in LENGTHS {
        let (one, other) = (bits(&mut random, length, 2), bits(&mut random, length, 3));
        let (list, mask) = (BitVec::from_bits_u64(&one), BitVec::from_bits_u64(&other));
        let combined = |combine: fn(u64, u64) -> u64| -> Vec<u64> {
            one.iter().zip(&other).map(|(&one, &other)| combine(one, other) & 1).collect()
        };
        let neither: fn(u64, u64) -> u64 = |one, other| !(one | other);
        for (masked, wanted) in [
            (list.mask_or(&mask).unwrap(), combined(|one, other| one | other)),
            (list.mask_and(&mask).unwrap(), combined(|one, other| one & other)),
            (list.mask_xor(&mask).unwrap(), combined(|one, other| one ^ other)),
            (list.mask_custom(&mask, neither).unwrap(), combined(neither)),
        ] {
            assert_eq!(masked.to_bit_vec(), BitVec::from_bits_u64(&wanted));
            let ones = wanted.iter().sum();
            assert_eq!((masked.count_ones(), masked.count_zeros()), (ones, length as u64 - ones));
            for (position, &bit) in wanted.iter().enumerate() {
                assert_eq!((masked.get(position), masked.is_bit_set(position)), (Some(bit), Some(bit == 1)));
                assert_eq!((masked.get_unchecked(position), masked.is_bit_set_unchecked(position)), (bit, bit == 1));
                let count = 1 + random.below(64) as usize;
                assert_eq!(masked.get_bits(position, count), masked.to_bit_vec().get_bits(position, count));
            }
        }
        let mut changed = list.clone();
        changed.apply_mask_custom(&mask, neither).unwrap();
        assert_eq!(changed, BitVec::from_bits_u64(&combined(neither)));
        assert!(changed.apply_mask_or(&BitVec::from_zeros(length + 1)).is_err());
    }
}

#[test]
fn numbers_are_packed() {
    let numbers = [1u64, 0, u64::MAX, 77];
    for width in [1usize, 5, 31, 63, 64, 65, 130] {
        let packed = BitVec::pack_sequence_u64(&numbers, width);
        assert_eq!(packed, BitVec::pack_from_iter_u64(numbers, width));
        assert_eq!(packed.len(), 4 * width);
        let bit = |position: usize| match position % width {
            high if high > 63 => 0,
            low => numbers[position / width] >> low & 1,
        };
        assert!(packed.iter().eq((0..4 * width).map(bit)));
    }
    assert_eq!(BitVec::pack_sequence_u8(&[7, 255], 9).get_bits(0, 18), Some(7 | 255 << 9));
}

#[test]
fn items_come_from_both_ends() {
    let mut random = Random::new(6);
    let plain = random.numbers(1000, 2);
    let list = RsVec::from_bit_vec(BitVec::from_bits_u64(&plain));
    for _ in 0..50 {
        let (mut items, mut wanted) = (list.iter(), plain.iter().copied());
        loop {
            let n = random.below(60) as usize;
            let pair = match random.below(4) {
                0 => (items.next(), wanted.next()),
                1 => (items.next_back(), wanted.next_back()),
                2 => (items.nth(n), wanted.nth(n)),
                _ => (items.nth_back(n), wanted.nth_back(n)),
            };
            assert_eq!(pair.0, pair.1);
            assert_eq!(items.len(), wanted.len());
            if pair.0.is_none() {
                break;
            }
        }
    }
}
