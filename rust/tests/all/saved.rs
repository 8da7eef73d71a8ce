//! Saved forms, which are loaded as what they were made of and as nothing else.
use crate::plain::Random;
use std::io::{self, ErrorKind, Write};
use vers_vecs::inverted::InvertedIndex;
use vers_vecs::postings::Postings;
use vers_vecs::saved::{LoadError, SaveError, Saved};
use vers_vecs::text::TextIndex;
use vers_vecs::{BinaryRmq, BitVec, BpTree, EliasFanoVec, FastRmq, RsVec, SparseRSVec, WaveletMatrix};

/// Saves a structure and loads it; no other bytes are loaded.
fn again<S: Saved>(structure: &S) -> S {
    let bytes = structure.save().unwrap();
    for length in [0, bytes.len() - 1] {
        assert_eq!(S::load(&bytes[..length]).err(), Some(LoadError::TooShort));
    }
    for position in (0..bytes.len()).step_by(1 + bytes.len() / 50) {
        let mut other = bytes.clone();
        other[position] ^= 1;
        assert!(S::load(&other).is_err(), "a bit of byte {position} was flipped");
    }
    S::load(&bytes).unwrap()
}

#[test]
fn structures_are_loaded_as_they_were() {
    let mut random = Random::new(1);
    for length in [0, 1, 63, 64, 65, 700] {
        let mut numbers = random.numbers(length, 1000);
        let bits = BitVec::from_bits_u64(&numbers);
        assert_eq!(again(&bits), bits);
        assert!(again(&RsVec::from_bit_vec(bits.clone())).iter().eq(&bits));
        let sparse = again(&SparseRSVec::from_bitvec(&bits));
        assert!(
            (0..length).all(|position| sparse.get(position as u64) == bits.get(position))
                && sparse.len() == length as u64
        );
        let symbols = again(&WaveletMatrix::from_slice(&numbers, 10));
        assert!(symbols.iter_u64().unwrap().eq(numbers.iter().copied()) && symbols.bits_per_element() == 10);
        assert_eq!(**again(&FastRmq::from_vec(numbers.clone())), numbers);
        assert_eq!(**again(&BinaryRmq::from_vec(numbers.clone())), numbers);
        let tree = again(&BpTree::<512>::from_bit_vector(bits.clone()));
        assert_eq!(BitVec::from(tree), bits);
        numbers.sort_unstable();
        assert!(again(&EliasFanoVec::from_slice(&numbers)).iter().eq(numbers));
    }
}

#[test]
fn documents_are_loaded_as_they_were() {
    for documents in [vec![], vec![7], vec![1, 4, 6, u64::MAX]] {
        let costs: Vec<u64> = documents.iter().map(|&document| document % 5).collect();
        let list = Postings::from_sorted(&documents, &costs).unwrap();
        let other = again(&list);
        assert_eq!((other.len(), other.intersect(&list)), (list.len(), documents.clone()));
        for &from in &documents {
            assert_eq!(other.cheapest(from, u64::MAX), list.cheapest(from, u64::MAX));
        }
    }
}

#[test]
fn lists_of_terms_are_loaded_as_they_were() {
    for (terms, universe, pairs) in
        [(0, 0, vec![]), (3, 10, vec![(0, 3), (0, 7), (2, 1)]), (1, u64::MAX, vec![(0, 0), (0, u64::MAX - 1)])]
    {
        let index = again(&InvertedIndex::from_pairs(terms, universe, &pairs).unwrap());
        assert_eq!((index.terms(), index.universe(), index.len()), (terms, universe, pairs.len()));
        assert!(pairs.iter().all(|&(term, document)| index.contains(term, document)));
    }
}

#[test]
fn each_kind_is_loaded_as_itself() {
    let bytes = EliasFanoVec::from_slice(&[1, 2]).save().unwrap();
    let errors = [
        RsVec::load(&bytes).err(),
        SparseRSVec::load(&bytes).err(),
        FastRmq::load(&bytes).err(),
        BpTree::<512>::load(&bytes).err(),
        Postings::load(&bytes).err(),
        InvertedIndex::load(&bytes).err(),
    ];
    assert_eq!(errors, [Some(LoadError::OtherKind); 6]);
}

#[test]
fn the_first_fault_is_reported() {
    let bytes = RsVec::from_bit_vec(BitVec::from_bits(&[0, 1, 1, 0])).save().unwrap();
    let fault = |position: usize| {
        let mut bytes = bytes.clone();
        bytes[position] ^= 1;
        RsVec::load(&bytes).unwrap_err()
    };
    let faults = [0, 8, 16, 40].map(fault);
    assert_eq!(faults, [LoadError::NotOurs, LoadError::OtherVersion, LoadError::OtherKind, LoadError::BadSum]);
    assert_eq!(
        RsVec::load(&[&bytes[..], &[0]].concat()).unwrap_err().to_string(),
        "no such structure is as long, or the bytes go on after it"
    );
}

/// Loads the form of a structure in which a word is another, with the sum that docs/FORMAT.md defines.
fn changed<S: Saved>(structure: &S, position: usize, word: u64) -> Option<LoadError> {
    let bytes = structure.save().unwrap();
    let mut words: Vec<u64> = bytes.chunks(8).map(|it| u64::from_le_bytes(it.try_into().unwrap())).collect();
    words[position] = word;
    let last = words.len() - 1;
    words[last] = words[..last]
        .iter()
        .fold(0xcbf2_9ce4_8422_2325, |sum: u64, word| (sum ^ word).wrapping_mul(0x9e37_79b9_7f4a_7c15).rotate_left(29));
    S::load(&words.iter().flat_map(|it| it.to_le_bytes()).collect::<Vec<_>>()).err()
}

#[test]
fn items_that_no_structure_has_are_refused() {
    let bits = RsVec::from_bit_vec(BitVec::from_bits(&[0, 1, 1, 0]));
    assert_eq!((changed(&bits, 5, 0b1111), changed(&bits, 5, 0b1_0110)), (None, Some(LoadError::BadPadding)));
    let postings = Postings::from_sorted(&[1, 4], &[7, 7]).unwrap();
    assert_eq!((changed(&postings, 5, 3), changed(&postings, 5, 4)), (None, Some(LoadError::NotAscending)));
    let text = TextIndex::from_bytes(b"abab", 8).unwrap();
    assert_eq!(changed(&text, 7, 5), Some(LoadError::NotAText), "a text of 4 symbols has the rows 0 to 4");
}

/// A writer that takes at most three bytes at once.
struct Narrow(Vec<u8>);

impl Write for Narrow {
    fn write(&mut self, bytes: &[u8]) -> io::Result<usize> {
        self.0.write(&bytes[..bytes.len().min(3)])
    }

    fn flush(&mut self) -> io::Result<()> {
        Ok(())
    }
}

#[test]
fn forms_are_written_and_read_whole() {
    let (bits, mut writer) = (RsVec::from_bit_vec(BitVec::from_ones(100)), Narrow(Vec::new()));
    bits.save_to(&mut writer).unwrap();
    assert_eq!((&writer.0, RsVec::load_from(&writer.0[..]).unwrap()), (&bits.save().unwrap(), bits));
    let error = RsVec::load_from(&writer.0[1..]).unwrap_err();
    assert_eq!((error.kind(), error.to_string()), (ErrorKind::InvalidData, LoadError::NotOurs.to_string()));
    let mut nothing = Vec::new();
    let error = WaveletMatrix::from_slice(&[1], 0).save_to(&mut nothing).unwrap_err();
    assert_eq!((error.kind(), error.to_string()), (ErrorKind::Other, SaveError::NoForm.to_string()));
    assert_eq!(nothing, []);
}

#[test]
fn some_symbols_have_no_form() {
    assert_eq!(WaveletMatrix::from_slice(&[1], 0).save(), Err(SaveError::NoForm));
    assert_eq!(WaveletMatrix::from_bit_vec(&BitVec::from_ones(130), 65).save(), Err(SaveError::NoForm));
}
