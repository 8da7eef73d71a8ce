//! Makers that return an error instead of a panic, and functions of callers that panic.
use std::panic::{catch_unwind, AssertUnwindSafe};
use vers_vecs::error::BuildError;
use vers_vecs::postings::Postings;
use vers_vecs::text::TextIndex;
use vers_vecs::{BinaryRmq, BitVec, BpTree, EliasFanoVec, FastRmq, RsVec, SparseRSVec, WaveletMatrix};

#[test]
fn errors_name_the_first_fault() {
    let ascending = |position| Some(BuildError::NotAscending { position });
    assert_eq!(EliasFanoVec::try_from_slice(&[1, 1, 3, 2, 1]).err(), ascending(3));
    assert_eq!(SparseRSVec::try_new(&[1, 1, 9], 5).err(), ascending(1));
    assert_eq!(SparseRSVec::try_new(&[1, 5, 9], 5).err(), Some(BuildError::OutOfRange { position: 1 }));
    assert_eq!(Postings::from_sorted(&[4, 4], &[0, 0]).err(), ascending(1));
    assert_eq!(Postings::from_sorted(&[4], &[]).err(), Some(BuildError::LengthMismatch));
    let too_wide = |position| Some(BuildError::SymbolTooWide { position });
    let unsupported = |bits| Some(BuildError::UnsupportedWidth { bits });
    assert_eq!(WaveletMatrix::try_from_slice(&[7, 8, 9], 3).err(), too_wide(1));
    assert_eq!(WaveletMatrix::try_from_slice(&[], 0).err(), unsupported(0));
    assert_eq!(WaveletMatrix::try_from_slice(&[], 65).err(), unsupported(65));
    assert_eq!(WaveletMatrix::try_from_slice(&[u64::MAX], 64).unwrap().get_u64(0), Some(u64::MAX));
    assert_eq!(WaveletMatrix::try_from_bit_vec(&BitVec::from_ones(4), 3).err(), Some(BuildError::PartialSymbol));
    assert_eq!(WaveletMatrix::try_from_bit_vec(&BitVec::from_ones(4), 0).err(), unsupported(0));
    assert_eq!(TextIndex::from_slice(&[1], 17).err(), unsupported(17));
    assert_eq!(TextIndex::from_slice(&[3, 4], 2).err(), too_wide(1));
    assert_eq!(TextIndex::with_step(&[1], 2, 0).err(), Some(BuildError::ZeroStep));
}

#[test]
fn lists_of_too_many_bits_are_refused() {
    let refused =
        [BitVec::try_from_zeros, BitVec::try_from_ones, BitVec::try_with_capacity].map(|make| make(usize::MAX));
    assert!(refused.iter().all(|list| list.as_ref().err() == Some(&BuildError::TooLong)));
    // so much memory no machine has
    assert_eq!(BitVec::try_from_zeros(1 << 62).err(), Some(BuildError::OutOfMemory));
}

#[test]
fn makers_that_succeed_make_the_same() {
    let bits = BitVec::from_bits(&[1, 1, 0, 0]);
    assert_eq!(BitVec::try_from_limbs(&[5]).unwrap(), BitVec::from_limbs(&[5]));
    assert_eq!(BitVec::try_from_ones(9).unwrap(), BitVec::from_ones(9));
    assert_eq!(RsVec::try_from_bit_vec(bits.clone()).unwrap(), RsVec::from_bit_vec(bits.clone()));
    assert_eq!(SparseRSVec::try_new(&[3], 5).unwrap(), SparseRSVec::new(&[3], 5));
    assert_eq!(EliasFanoVec::try_from_slice(&[3, 3]).unwrap(), EliasFanoVec::from_slice(&[3, 3]));
    assert_eq!(WaveletMatrix::try_from_slice(&[3], 2).unwrap(), WaveletMatrix::from_slice(&[3], 2));
    assert_eq!(WaveletMatrix::try_from_bit_vec(&bits, 2).unwrap(), WaveletMatrix::from_bit_vec(&bits, 2));
    assert_eq!(BinaryRmq::try_from_vec(vec![3]).unwrap(), BinaryRmq::from_vec(vec![3]));
    assert_eq!(FastRmq::try_from_vec(vec![3]).unwrap(), FastRmq::from_vec(vec![3]));
    assert_eq!(BpTree::<64>::try_from_bit_vector(bits.clone()).unwrap(), BpTree::<64>::from_bit_vector(bits));
}

/// Numbers below `n`, and then a panic.
fn breaking(n: u64) -> impl Iterator<Item = u64> {
    (0..=n).inspect(move |&it| assert!(it < n, "no more"))
}

/// Makes a change that panics.
fn breaks(change: impl FnOnce()) {
    assert!(catch_unwind(AssertUnwindSafe(change)).is_err());
}

/// A list is whole: each call answers as that of a list that is made of its bits anew.
fn is_whole(bits: &BitVec) {
    let items: Vec<u64> = bits.iter().collect();
    let again = BitVec::from_bits_u64(&items);
    assert_eq!((bits, bits.len(), bits.count_ones()), (&again, items.len(), items.iter().sum()));
    assert!(bits.iter_limbs().eq(again.iter_limbs()));
    let mut grown = bits.clone();
    grown.append_bits(0b101, 3);
    assert_eq!(grown.get_bits(bits.len(), 3), Some(0b101));
}

#[test]
fn a_mask_that_panics_leaves_a_valid_list() {
    use std::sync::atomic::{AtomicUsize, Ordering};
    static CALLS: AtomicUsize = AtomicUsize::new(0);
    fn mask(one: u64, other: u64) -> u64 {
        assert!(CALLS.fetch_add(1, Ordering::Relaxed) != 2, "the third pair");
        !(one & other)
    }
    let mut bits = BitVec::from_ones(300);
    let other = bits.clone();
    breaks(|| bits.apply_mask_custom(&other, mask).unwrap());
    is_whole(&bits);
    assert!(bits.is_empty());
    let bits = BitVec::from_ones(300);
    CALLS.store(0, Ordering::Relaxed);
    breaks(|| drop(bits.mask_custom(&other, mask).unwrap().to_bit_vec()));
    CALLS.store(2, Ordering::Relaxed);
    breaks(|| assert!(bits.mask_custom(&other, mask).unwrap().get(5).is_none()));
    is_whole(&bits);
    assert_eq!(bits, other);
    let mut bits = bits;
    assert!(bits.apply_mask_custom(&BitVec::new(), mask).is_err());
    assert_eq!(bits, other, "masks of another length change nothing");
}

#[test]
fn iterators_that_panic_leave_valid_lists() {
    let mut bits = BitVec::from_ones(5);
    breaks(|| bits.extend(breaking(70).map(|it| it % 3 == 0)));
    is_whole(&bits);
    assert_eq!(bits.len(), 75);
    breaks(|| bits.extend(breaking(3).map(|_| BitVec::from_zeros(50))));
    is_whole(&bits);
    assert_eq!(bits.len(), 225);
    breaks(|| drop(BitVec::from_bits_iter(breaking(100))));
    breaks(|| drop(BitVec::from_limbs_iter(breaking(100))));
    breaks(|| drop(BitVec::from_bool_iter(breaking(100).map(|it| it > 3))));
    breaks(|| drop(BitVec::pack_from_iter_u64(breaking(100), 7)));
    breaks(|| drop(breaking(10).collect::<FastRmq>()));
    breaks(|| drop(breaking(10).map(|it| it > 3).collect::<RsVec>()));
}
