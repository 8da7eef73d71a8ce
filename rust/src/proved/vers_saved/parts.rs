//! The words of ascending lists: their ends, and the limbs of their low and of their high parts.

use crate::rattle::prelude::*;

use crate::proved::vers_saved::bits::limb_of;
use crate::proved::vers_saved::form::first_bits;
use crate::proved::vers_saved::words::Words;
use crate::rattle::AllocError;
use crate::rattle::Allocator;
use crate::proved::vers_bits::bit_vec::BitVec;
use crate::proved::vers_rank::fast_rs_vec::RsVec;
use crate::proved::vers_sorted::elias_fano::{EliasFanoVec, Ends, Limbs, PartLengths, are_parts};

/// The number of words before the parts.
pub(crate) const ENDS: usize = 3;

/// A number of words of others, from one of them on.
pub(crate) struct Cut<'a, W: Words> {
    words: &'a W,
    from: usize,
    count: usize,
}

impl<'a, W: Words> Cut<'a, W> {
    // Returns `count` words from word `from` on.
    pub(crate) fn new(words: &'a W, from: usize, count: usize) -> Self {
        Cut { words, from, count }
    }
}

impl<'a, W: Words> Words for Cut<'a, W> {
    #[inline]
    fn word(&self, k: usize) -> u64 {
        self.words.word(self.from + k)
    }
}

/// The words of a slice.
pub(crate) struct Listed<'a> {
    words: &'a [u64],
}

impl<'a> Words for Listed<'a> {
    #[inline]
    fn word(&self, k: usize) -> u64 {
        self.words[k]
    }
}

/// The first bits of words from one of them on, the last of which has only zeros past these bits.
struct PartBits<'a, W: Words> {
    words: &'a W,
    from: usize,
    bits: usize,
}

impl<'a, W: Words> Limbs for PartBits<'a, W> {
    #[inline]
    fn len(&self) -> usize {
        self.bits
    }

    #[inline]
    fn limb(&self, k: usize) -> u64 {
        self.words.word(self.from + k)
    }
}

// Returns the first `bits` bits of words from word `from` on. `None` if the last one has ones past them.
fn bits_at<'a, W: Words>(words: &'a W, from: usize, bits: usize) -> Option<PartBits<'a, W>> {
    if bits % 64 != 0 && words.word(from + bits / 64) >= 1 << (bits % 64) {
        return None;
    }
    Some(PartBits { words, from, bits })
}

// The ends of a list and the numbers of bits of its parts.
#[derive(Clone, Copy)]
struct PartEnds {
    ends: Ends,
    lengths: PartLengths,
}

// Returns what the first words say. `None` if they are too few or too many for it.
fn ends_of<W: Words>(words: &W, count: usize) -> Option<PartEnds> {
    if count < ENDS {
        return None;
    }
    let ends = Ends {
        len: words.word(0) as usize,
        first: words.word(1),
        last: words.word(2),
    };
    let lengths = ends.part_lengths()?;
    if count - ENDS != lengths.low.div_ceil(64) + lengths.high.div_ceil(64) {
        return None;
    }
    Some(PartEnds { ends, lengths })
}

// Returns true if these words are those of a list that ascends, strictly if `rising`.
pub(crate) fn are_of_list<W: Words>(words: &W, count: usize, rising: bool) -> bool {
    let head = match ends_of(words, count) { Some(head) => head, _ => {
        return false;
    } };
    let low = match bits_at(words, ENDS, head.lengths.low) { Some(low) => low, _ => {
        return false;
    } };
    let from = ENDS + head.lengths.low.div_ceil(64);
    let high = match bits_at(words, from, head.lengths.high) { Some(high) => high, _ => {
        return false;
    } };
    are_parts(head.ends, &low, &high, rising)
}

// Returns true if `n` words from word `from` on are those of a sparse list of bits.
pub(crate) fn are_of_sparse<W: Words>(words: &W, from: usize, n: usize) -> bool {
    if n <= ENDS || !are_of_list(&Cut::new(words, from + 1, n - 1), n - 1, true) {
        return false;
    }
    let (len, count, last) = (words.word(from), words.word(from + 1), words.word(from + 3));
    count == 0 || last < len
}

// Returns the list with these words, which are those of a list.
pub(crate) fn list_in<A: Allocator + Copy>(
    alloc: A,
    words: &[u64],
) -> Result<EliasFanoVec<A>, AllocError> {
    let head = ends_of(&Listed { words }, words.len()).unwrap();
    let end = ENDS + head.lengths.low.div_ceil(64);
    let low = part_in(alloc, &words[ENDS..end], head.lengths.low)?;
    let high = part_in(alloc, &words[end..], head.lengths.high)?;
    let list = EliasFanoVec::from_parts(head.ends, low, high)?;
    Ok(list)
}

// Returns the first `len` bits of words, of which there are as many as these bits need.
fn part_in<A: Allocator + Copy>(
    alloc: A,
    words: &[u64],
    len: usize,
) -> Result<BitVec<A>, AllocError> {
    let copied = Vec::from_slice(alloc, words)?;
    Ok(first_bits(len, copied))
}

// Returns the number of words of a list.
pub(crate) fn count_list<A: Allocator + Copy>(list: &EliasFanoVec<A>) -> usize {
    let _ = list.len();
    let _ends = list.ends();
    ENDS + list.low_parts().len().div_ceil(64) + list.high_parts().len().div_ceil(64)
}

// Returns word `k` of a list.
#[inline]
pub(crate) fn list_word<A: Allocator + Copy>(list: &EliasFanoVec<A>, k: usize) -> u64 {
    if k < ENDS {
        return end_word(list, k);
    }
    let low = list.low_parts();
    let limbs = low.len().div_ceil(64);
    if k - ENDS < limbs {
        return low.limb(k - ENDS);
    }
    limb_of(list.high_parts(), k - ENDS - limbs)
}

// Copies limbs of low parts, from one of them on.
fn copy_low<A: Allocator + Copy>(low: &BitVec<A>, from: usize, out: &mut [u64]) {
    for k in 0..out.len() {
        out[k] = low.limb(from + k);
    }
}

// Copies limbs of high parts, from one of them on.
fn copy_high<A: Allocator + Copy>(high: &RsVec<A>, from: usize, out: &mut [u64]) {
    for k in 0..out.len() {
        out[k] = limb_of(high, from + k);
    }
}

// Copies words of a list, from one of them on.
pub(crate) fn copy_list<A: Allocator + Copy>(list: &EliasFanoVec<A>, from: usize, out: &mut [u64]) {
    let low = list.low_parts();
    let end = ENDS + low.len().div_ceil(64);
    if from >= end {
        return copy_high(list.high_parts(), from - end, out);
    }
    if from >= ENDS && out.len() <= end - from {
        return copy_low(low, from - ENDS, out);
    }
    for k in 0..out.len() {
        out[k] = list_word(list, from + k);
    }
}

// Returns word `k` of the ends of a list.
fn end_word<A: Allocator + Copy>(list: &EliasFanoVec<A>, k: usize) -> u64 {
    let ends = list.ends();
    if k == 0 {
        return ends.len as u64;
    }
    if k == 1 {
        return ends.first;
    }
    ends.last
}
