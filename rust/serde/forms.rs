//! Structures that are serialized come back as they were, and other bytes are refused by name.
use serde::de::DeserializeOwned;
use serde::Serialize;
use vers_vecs::inverted::InvertedIndex;
use vers_vecs::postings::Postings;
use vers_vecs::saved::Saved;
use vers_vecs::text::TextIndex;
use vers_vecs::{BinaryRmq, BitVec, BpTree, EliasFanoVec, FastRmq, RsVec, SparseRSVec, WaveletMatrix};

fn comes_back<T: Serialize + DeserializeOwned + Saved + PartialEq + std::fmt::Debug>(structure: T) {
    let bytes = bincode::serialize(&structure).unwrap();
    assert_eq!(bincode::deserialize::<T>(&bytes).unwrap(), structure);
    // bincode writes the length of the saved form before it
    assert_eq!(bytes[8..], structure.save().unwrap());
    for position in 8..bytes.len() {
        let mut other = bytes.clone();
        other[position] ^= 1;
        let error = bincode::deserialize::<T>(&other).unwrap_err().to_string();
        let expected = T::load(&other[8..]).err().unwrap().to_string();
        assert_eq!(error, expected);
    }
    assert!(bincode::deserialize::<T>(&bytes[..bytes.len() - 1]).is_err());
}

#[test]
fn all_structures_come_back() {
    let bits = BitVec::from_bits(&[0, 1, 1, 0, 1, 0]);
    comes_back(bits.clone());
    comes_back(RsVec::from_bit_vec(bits.clone()));
    comes_back(SparseRSVec::from_bitvec(&bits));
    comes_back(EliasFanoVec::from_slice(&[1, 5, 5, 1 << 40]));
    comes_back(WaveletMatrix::from_slice(&[5, 1, 7], 3));
    comes_back(BinaryRmq::from_vec(vec![4, 2, 9]));
    comes_back(FastRmq::from_vec(vec![4, 2, 9]));
    comes_back(BpTree::<512>::from_bit_vector(BitVec::from_bits(&[1, 1, 0, 0])));
    comes_back(Postings::from_sorted(&[3, 8], &[1, 0]).unwrap());
}

#[test]
fn an_inverted_index_comes_back() {
    let index = InvertedIndex::from_pairs(3, 10, &[(0, 3), (0, 7), (2, 1)]).unwrap();
    let bytes = bincode::serialize(&index).unwrap();
    assert_eq!(bincode::deserialize::<InvertedIndex>(&bytes).unwrap().save(), index.save());
    assert!(bincode::deserialize::<InvertedIndex>(&bytes[..bytes.len() - 1]).is_err());
}

#[test]
fn symbols_without_a_form_are_refused() {
    let error = bincode::serialize(&WaveletMatrix::from_slice(&[1], 0)).unwrap_err().to_string();
    assert_eq!(error, "symbols of no bits or more than 64 have no saved form");
}

#[test]
fn a_text_index_comes_back() {
    let text = TextIndex::from_bytes(b"abracadabra", 8).unwrap();
    let bytes = bincode::serialize(&text).unwrap();
    assert_eq!(bincode::deserialize::<TextIndex>(&bytes).unwrap().save(), text.save());
    assert!(bincode::deserialize::<TextIndex>(&bytes[..bytes.len() - 1]).is_err());
}
