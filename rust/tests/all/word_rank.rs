//! Compares lists of bits with counted words with sums of their bits.

use crate::plain::Random;
use vers_vecs::reads::Tally;
use vers_vecs::word_rank::{BitAndRank, WordRank};
use vers_vecs::BitVec;

/// Around a word, and around one and two superblocks.
const LENGTHS: [usize; 13] = [0, 1, 2, 63, 64, 65, 127, 128, 129, 32_767, 32_768, 32_769, 65_537];

/// Lists of a length: of equal bits, of every third, of random ones, and of ones at the end alone.
fn lists(len: usize) -> Vec<Vec<bool>> {
    let mut random = Random::new(len as u64);
    vec![
        vec![false; len],
        vec![true; len],
        (0..len).map(|position| position % 3 == 0).collect(),
        (0..len).map(|_| random.below(2) == 1).collect(),
        (0..len).map(|position| position + 1 == len).collect(),
    ]
}

#[test]
fn ranks_are_sums() {
    for list in LENGTHS.into_iter().flat_map(lists) {
        let bits: WordRank = list.iter().copied().collect();
        assert_eq!((bits.len(), bits.is_empty()), (list.len(), list.is_empty()));
        let mut ones = 0;
        for (position, &is_one) in list.iter().enumerate() {
            assert_eq!(bits.rank1(position), ones);
            assert_eq!(bits.is_one(position), Some(is_one));
            assert_eq!(bits.get_and_rank1(position), Some(BitAndRank { is_one, ones }));
            ones += usize::from(is_one);
        }
        for position in [list.len(), list.len() + 1, list.len() + 64, usize::MAX] {
            let mut tally = Tally::new();
            assert_eq!((bits.rank1(position), bits.rank1_counted(position, &mut tally)), (ones, ones));
            assert_eq!((bits.is_one(position), bits.get_and_rank1(position)), (None, None));
            let (is_one, found) =
                (bits.is_one_counted(position, &mut tally), bits.get_and_rank1_counted(position, &mut tally));
            assert_eq!((is_one, found), (None, None));
        }
    }
}

#[test]
fn bits_are_read_back() {
    for list in LENGTHS.into_iter().flat_map(lists) {
        let plain: BitVec = list.iter().copied().collect();
        let bits = WordRank::from_bit_vec(plain.clone());
        let numbers = list.iter().map(|&is_one| u64::from(is_one));
        assert!(bits.iter().eq(numbers.clone()) && bits.iter().rev().eq(numbers.clone().rev()));
        assert!((&bits).into_iter().eq(numbers));
        assert_eq!(bits, WordRank::try_from_bit_vec(plain.clone()).unwrap());
        assert_eq!((bits.to_bit_vec(), bits.clone()), (plain.clone(), plain.into()));
    }
}

#[test]
fn a_word_has_a_count_of_two_bytes() {
    for (len, bytes) in [(0, 0), (1, 18), (64, 18), (65, 28), (32_768, 5128), (32_769, 5146)] {
        assert_eq!(WordRank::from(BitVec::from_ones(len)).heap_size(), bytes);
    }
}

#[test]
fn a_rank_reads_a_word_and_two_counts() {
    let bits = WordRank::from_bit_vec(BitVec::from_ones(100_000));
    for position in [0, 77_777, 99_999, 100_000, usize::MAX] {
        let mut tally = Tally::new();
        assert_eq!(bits.rank1_counted(position, &mut tally), position.min(100_000));
        assert_eq!((tally.data_words(), tally.block_entries(), tally.superblock_entries()), (1, 1, 1));
    }
    let mut tally = Tally::new();
    assert_eq!(bits.is_one_counted(77_777, &mut tally), Some(true));
    assert_eq!((tally.data_words(), tally.block_entries(), tally.superblock_entries()), (1, 0, 0));
    let found = bits.get_and_rank1_counted(77_777, &mut tally);
    assert_eq!(found, Some(BitAndRank { is_one: true, ones: 77_777 }));
    assert_eq!((tally.data_words(), tally.block_entries(), tally.superblock_entries()), (2, 1, 1));
}
