//! Tests of lists of the greatest length and of counters at their greatest, which only the build of wrong bodies has:
//! there a test lowers a greatest length (`crate::rattle::mutants`), and the sources compare with that one.

use crate::programs::vers_cli::{documents, values};
use crate::proved::postings::{Postings, PostingsError};
use crate::proved::text_index::{TextError, TextIndex, MAX_LEN as MOST_SYMBOLS};
use crate::proved::vers_bits::bit_vec::{BitVec, GrowError, MAX_LEN};
use crate::proved::vers_rmq::rmq::fast_rmq::{FastRmq, MAX_LEN as MOST_ITEMS};
use crate::proved::vers_tally::tally::Tally;
use crate::proved::vers_trees::trees::bp::{BpTree, MAX_LEN as MOST_PARENTHESES};
use crate::rattle::mutants::lower;
use crate::rattle::{Clone as _, Global, Vec};

/// Ones at each third position.
fn bits(n: usize) -> BitVec<Global> {
    BitVec::from_bools(Global, &(0..n).map(|k| k % 3 == 0).collect::<std::vec::Vec<_>>()).ok().unwrap()
}

#[test]
fn bits_are_appended_up_to_the_greatest_length() {
    lower(MAX_LEN, 192);
    let mut list = BitVec::new(Global);
    for n in 0..192 {
        assert_eq!(list.append(n % 3 == 0), Ok(()), "{n}");
    }
    assert_eq!(list.append(true), Err(GrowError::TooLong));
    assert!(list == bits(192));
}

#[test]
fn a_list_that_would_be_too_long_leaves_those_before() {
    lower(MAX_LEN, 256);
    let mut list = bits(30);
    let lists = [bits(60), bits(90), bits(100)];
    let mut whole = bits(30);
    assert!(whole.extend_bitvec(&lists[0]).is_ok() && whole.extend_bitvec(&lists[1]).is_ok());
    assert_eq!(list.extend_ref(lists.iter()), Err(GrowError::TooLong));
    assert!(list == whole);
    let mut list = bits(30);
    assert_eq!(list.extend(lists.into_iter()), Err(GrowError::TooLong));
    assert!(list == whole);
}

#[test]
fn bits_of_iterators_past_the_greatest_length_are_too_long() {
    lower(MAX_LEN, 192);
    let made = |n: usize| BitVec::from_bool_iter(Global, (0..n).map(|k| k % 3 == 0));
    assert!(made(192).ok().unwrap() == bits(192));
    assert_eq!(made(193).err(), Some(GrowError::TooLong));
}

#[test]
fn trees_have_up_to_the_greatest_length() {
    lower(MOST_PARENTHESES, 100);
    let made = |n: usize| BpTree::<8, Global>::from_bit_vector(bits(n));
    assert_eq!(made(100).ok().unwrap().len(), 100);
    assert_eq!(made(101).err(), Some(GrowError::TooLong));
}

#[test]
fn minima_have_up_to_the_greatest_number_of_items() {
    lower(MOST_ITEMS, 10);
    let made = |n: u64| FastRmq::from_iter(Global, 0..n);
    assert_eq!(made(10).ok().unwrap().len(), 10);
    assert_eq!(made(11).err(), Some(GrowError::TooLong));
}

#[test]
fn documents_are_refused_past_the_greatest_number_of_costs() {
    lower(MOST_ITEMS, 10);
    let made = |n: u64| {
        let documents: std::vec::Vec<u64> = (0..n).collect();
        Postings::from_sorted(&documents, Vec::from_slice(Global, &documents).ok().unwrap())
    };
    assert_eq!(made(10).ok().unwrap().len(), 10);
    assert_eq!(made(11).err(), Some(PostingsError::TooLong));
}

#[test]
fn texts_have_up_to_the_greatest_number_of_symbols() {
    lower(MOST_SYMBOLS, 10);
    let text = TextIndex::with_step(Global, &[1; 10], 1, 3).ok().unwrap();
    assert!(text.places_ascending(&[]).ok().unwrap().as_slice().iter().copied().eq(0..11));
    assert_eq!(TextIndex::with_step(Global, &[1; 11], 1, 3).err(), Some(TextError::TooLong));
}

#[test]
fn lines_are_accepted_up_to_the_greatest_number_of_items() {
    lower(MOST_ITEMS, 10);
    let line = |n: usize| (0..n).map(|k| format!("{k} ")).collect::<String>();
    let pairs = |n: usize| (0..n).map(|k| format!("{k} 7 ")).collect::<String>();
    for n in 1..13 {
        assert_eq!(values::is_accepted(line(n).as_bytes()), n <= 10, "{n}");
        assert_eq!(documents::is_accepted(pairs(n).as_bytes()), n <= 10, "{n}");
    }
}

#[test]
fn a_counter_stays_at_its_greatest() {
    let mut tally = Tally::full();
    tally.add_rank_call();
    tally.add_block();
    tally.add_chunk();
    assert_eq!((tally.rank_calls(), tally.blocks(), tally.chunks()), (u64::MAX, u64::MAX, u64::MAX));
}
