//! Serialization as saved forms, so that deserialization tests untrusted bytes as [`Saved::load`] does.

use crate::inverted::InvertedIndex;
use crate::postings::Postings;
use crate::saved::Saved;
use crate::text::TextIndex;
use crate::{BinaryRmq, BitVec, BpTree, EliasFanoVec, FastRmq, RsVec, SparseRSVec, WaveletMatrix};
use serde::de::{Deserialize, Deserializer, Error, SeqAccess, Visitor};
use serde::ser::{Serialize, Serializer};
use std::fmt;
use std::marker::PhantomData;

/// Serializes a saved form.
fn save<T: Saved, S: Serializer>(structure: &T, serializer: S) -> Result<S::Ok, S::Error> {
    let bytes = structure.save().map_err(serde::ser::Error::custom)?;
    serializer.serialize_bytes(&bytes)
}

/// Takes the bytes of a saved form, in each shape that formats give bytes.
struct FormVisitor<T>(PhantomData<T>);

impl<'de, T: Saved> Visitor<'de> for FormVisitor<T> {
    type Value = T;

    fn expecting(&self, f: &mut fmt::Formatter<'_>) -> fmt::Result {
        f.write_str("the bytes of a saved form")
    }

    fn visit_bytes<E: Error>(self, bytes: &[u8]) -> Result<T, E> {
        T::load(bytes).map_err(E::custom)
    }

    fn visit_seq<A: SeqAccess<'de>>(self, mut sequence: A) -> Result<T, A::Error> {
        let mut bytes = Vec::new();
        while let Some(byte) = sequence.next_element::<u8>()? {
            bytes.push(byte);
        }
        self.visit_bytes(&bytes)
    }
}

macro_rules! forms {
    ($([$($block:tt)*] $name:ty;)*) => {
        $(
            impl<$($block)*> Serialize for $name {
                fn serialize<S: Serializer>(&self, serializer: S) -> Result<S::Ok, S::Error> {
                    save(self, serializer)
                }
            }

            impl<'de, $($block)*> Deserialize<'de> for $name {
                fn deserialize<D: Deserializer<'de>>(deserializer: D) -> Result<Self, D::Error> {
                    deserializer.deserialize_byte_buf(FormVisitor(PhantomData))
                }
            }
        )*
    };
}

forms! {
    [] BitVec;
    [] RsVec;
    [] SparseRSVec;
    [] EliasFanoVec;
    [] WaveletMatrix;
    [] BinaryRmq;
    [] FastRmq;
    [] Postings;
    [] InvertedIndex;
    [] TextIndex;
    [const BLOCK_SIZE: usize] BpTree<BLOCK_SIZE>;
}
