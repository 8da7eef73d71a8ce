//! Constructors of lists of bits.

use crate::rattle::prelude::*;

use crate::proved::vers_bits::bit_vec::words::cut;
use crate::proved::vers_bits::bit_vec::{BitVec, GrowError, MAX_LEN};
use crate::rattle::Allocator;

// The items that lists of bits are made of: numbers of up to 64 bits, and booleans.
trait Item: Copy {
    // Returns the item as a number.
    fn number(self) -> u64;

    // Returns true if the number is odd.
    fn is_odd(self) -> bool;
}

impl Item for bool {
    fn number(self) -> u64 {
        u64::from(self)
    }

    fn is_odd(self) -> bool {
        self
    }
}

impl Item for u8 {
    fn number(self) -> u64 {
        u64::from(self)
    }

    fn is_odd(self) -> bool {
        self % 2 == 1
    }
}

impl Item for u16 {
    fn number(self) -> u64 {
        u64::from(self)
    }

    fn is_odd(self) -> bool {
        self % 2 == 1
    }
}

impl Item for u32 {
    fn number(self) -> u64 {
        u64::from(self)
    }

    fn is_odd(self) -> bool {
        self % 2 == 1
    }
}

impl Item for u64 {
    fn number(self) -> u64 {
        self
    }

    fn is_odd(self) -> bool {
        self % 2 == 1
    }
}

impl<A: Allocator + Copy> BitVec<A> {
    /// Returns the empty list, with room for `n` bits.
    ///
    /// # Errors
    ///
    /// `TooLong` if `n` is above `MAX_LEN`; `Memory` if the allocator refuses a request.
    pub fn with_capacity(alloc: A, n: usize) -> Result<Self, GrowError> {
        check_len(n)?;
        let data = Vec::with_capacity(alloc, n.div_ceil(64))?;
        Ok(BitVec { data, len: 0 })
    }

    // Returns a list of `n` equal bits.
    fn from_equal(alloc: A, bit: bool, n: usize) -> Result<Self, GrowError> {
        check_len(n)?;
        let word = equal_word(bit);
        let mut data = Vec::new(alloc);
        data.resize(n.div_ceil(64), word)?;
        cut(&mut data, n);
        Ok(BitVec { data, len: n })
    }

    /// Returns a list of `n` zeros.
    ///
    /// # Errors
    ///
    /// `TooLong` if `n` is above `MAX_LEN`; `Memory` if the allocator refuses a request.
    pub fn from_zeros(alloc: A, n: usize) -> Result<Self, GrowError> {
        BitVec::from_equal(alloc, false, n)
    }

    /// Returns a list of `n` ones.
    ///
    /// # Errors
    ///
    /// `TooLong` if `n` is above `MAX_LEN`; `Memory` if the allocator refuses a request.
    pub fn from_ones(alloc: A, n: usize) -> Result<Self, GrowError> {
        BitVec::from_equal(alloc, true, n)
    }

    /// Returns the bits of the limbs, 64 of each, least significant first. Allocates nothing. Errors: `TooLong`
    /// if they exceed `MAX_LEN` bits; the limbs are then dropped.
    pub fn from_vec(limbs: Vec<u64, A>) -> Result<Self, GrowError> {
        let len = bits_of_limbs(limbs.len())?;
        Ok(BitVec { data: limbs, len })
    }

    /// Returns the bits of the limbs, 64 of each, least significant first.
    ///
    /// # Errors
    ///
    /// `TooLong` if they exceed `MAX_LEN` bits, which is tested before any allocation; `Memory` if the
    /// allocator refuses a request.
    pub fn from_limbs(alloc: A, limbs: &[u64]) -> Result<Self, GrowError> {
        bits_of_limbs(limbs.len())?;
        BitVec::from_vec(Vec::from_slice(alloc, limbs)?)
    }

    // Returns the lowest bit of each item of a slice.
    fn odd_items<T: Item>(alloc: A, items: &[T]) -> Result<Self, GrowError> {
        let mut list = BitVec::with_capacity(alloc, items.len())?;
        let mut rest = items;
        while !rest.is_empty() {
            let (limb, others) = rest.split_at(rest.len().min(64));
            list.append_bits(parities(limb), limb.len())?;
            rest = others;
        }
        Ok(list)
    }

    // Returns the lowest bit of each remaining item of an iterator. On error, the iterator has just passed the
    // item that was not appended. The first bit of each limb is appended, which may allocate. The others are
    // gathered in a word until the limb is full.
    #[inline(always)]
    fn odd_items_of<T: Item, I: Iterator<Item = T>>(
        alloc: A,
        items: &mut I,
    ) -> Result<Self, GrowError> {
        let mut list = BitVec::new(alloc);
        let mut word = 0;
        let mut gathered = 0;
        let mut room = 0;
        while let Some(item) = items.next() {
            if gathered < room {
                word = with_digit(word, gathered, item.is_odd());
                gathered += 1;
            } else {
                list.append_within(word, gathered);
                list.append(item.is_odd())?;
                word = 0;
                gathered = 0;
                room = 63;
            }
        }
        list.append_within(word, gathered);
        Ok(list)
    }

    // Returns the low `k` digits of each item of a slice.
    fn packed_items<T: Item>(alloc: A, items: &[T], k: usize) -> Result<Self, GrowError> {
        let len = match items.len().checked_mul(k) { Some(len) => len, _ => {
            return Err(GrowError::TooLong);
        } };
        let mut list = BitVec::with_capacity(alloc, len)?;
        for item in items {
            if list.append_digits(item.number(), k).is_err() {
                return Err(GrowError::Memory);
            }
        }
        Ok(list)
    }

    // Returns the low `k` digits of each remaining item of an iterator. On error, the iterator has just passed
    // the item that was not appended.
    #[inline(always)]
    fn packed_items_of<T: Item, I: Iterator<Item = T>>(
        alloc: A,
        items: &mut I,
        k: usize,
    ) -> Result<Self, GrowError> {
        let mut list = BitVec::new(alloc);
        while let Some(item) = items.next() {
            list.append_digits(item.number(), k)?;
        }
        Ok(list)
    }

    /// Returns the lowest bit of each item.
    ///
    /// # Errors
    ///
    /// `TooLong` if there are more than `MAX_LEN` items; `Memory` if the allocator refuses a request.
    pub fn from_bits(alloc: A, bits: &[u8]) -> Result<Self, GrowError> {
        BitVec::odd_items(alloc, bits)
    }

    /// Returns the lowest bit of each item.
    ///
    /// # Errors
    ///
    /// `TooLong` if there are more than `MAX_LEN` items; `Memory` if the allocator refuses a request.
    pub fn from_bits_u16(alloc: A, bits: &[u16]) -> Result<Self, GrowError> {
        BitVec::odd_items(alloc, bits)
    }

    /// Returns the lowest bit of each item.
    ///
    /// # Errors
    ///
    /// `TooLong` if there are more than `MAX_LEN` items; `Memory` if the allocator refuses a request.
    pub fn from_bits_u32(alloc: A, bits: &[u32]) -> Result<Self, GrowError> {
        BitVec::odd_items(alloc, bits)
    }

    /// Returns the lowest bit of each item.
    ///
    /// # Errors
    ///
    /// `TooLong` if there are more than `MAX_LEN` items; `Memory` if the allocator refuses a request.
    pub fn from_bits_u64(alloc: A, bits: &[u64]) -> Result<Self, GrowError> {
        BitVec::odd_items(alloc, bits)
    }

    /// Returns the lowest bit of each item of a finite iterator.
    ///
    /// # Errors
    ///
    /// `TooLong` at the item that would exceed `MAX_LEN` bits; `Memory` if the allocator refuses a request.
    pub fn from_bits_iter<I: Iterator<Item = u64>>(
        alloc: A,
        mut bits: I,
    ) -> Result<Self, GrowError> {
        BitVec::odd_items_of(alloc, &mut bits)
    }

    /// Returns the booleans as bits.
    ///
    /// # Errors
    ///
    /// `TooLong` if there are more than `MAX_LEN`; `Memory` if the allocator refuses a request.
    pub fn from_bools(alloc: A, bools: &[bool]) -> Result<Self, GrowError> {
        BitVec::odd_items(alloc, bools)
    }

    /// Returns the booleans of a finite iterator as bits.
    ///
    /// # Errors
    ///
    /// `TooLong` at the one that would exceed `MAX_LEN` bits; `Memory` if the allocator refuses a request.
    pub fn from_bool_iter<I: Iterator<Item = bool>>(
        alloc: A,
        mut bools: I,
    ) -> Result<Self, GrowError> {
        BitVec::odd_items_of(alloc, &mut bools)
    }

    /// Returns the bits of the limbs of a finite iterator, 64 of each, least significant first.
    ///
    /// # Errors
    ///
    /// `TooLong` at the limb that would exceed `MAX_LEN` bits; `Memory` if the allocator refuses a request.
    pub fn from_limbs_iter<I: Iterator<Item = u64>>(
        alloc: A,
        mut limbs: I,
    ) -> Result<Self, GrowError> {
        BitVec::packed_items_of(alloc, &mut limbs, 64)
    }

    /// Returns the low `k` bits of each number, one after another, with zeros above its 8 bits.
    ///
    /// # Errors
    ///
    /// `TooLong` if they exceed `MAX_LEN`, which is tested before any allocation; `Memory` if the allocator
    /// refuses a request.
    pub fn pack_sequence_u8(alloc: A, sequence: &[u8], k: usize) -> Result<Self, GrowError> {
        BitVec::packed_items(alloc, sequence, k)
    }

    /// Returns the low `k` bits of each number, one after another, with zeros above its 16 bits.
    ///
    /// # Errors
    ///
    /// `TooLong` if they exceed `MAX_LEN`, which is tested before any allocation; `Memory` if the allocator
    /// refuses a request.
    pub fn pack_sequence_u16(alloc: A, sequence: &[u16], k: usize) -> Result<Self, GrowError> {
        BitVec::packed_items(alloc, sequence, k)
    }

    /// Returns the low `k` bits of each number, one after another, with zeros above its 32 bits.
    ///
    /// # Errors
    ///
    /// `TooLong` if they exceed `MAX_LEN`, which is tested before any allocation; `Memory` if the allocator
    /// refuses a request.
    pub fn pack_sequence_u32(alloc: A, sequence: &[u32], k: usize) -> Result<Self, GrowError> {
        BitVec::packed_items(alloc, sequence, k)
    }

    /// Returns the low `k` bits of each number, one after another, with zeros above its 64 bits.
    ///
    /// # Errors
    ///
    /// `TooLong` if they exceed `MAX_LEN`, which is tested before any allocation; `Memory` if the allocator
    /// refuses a request.
    pub fn pack_sequence_u64(alloc: A, sequence: &[u64], k: usize) -> Result<Self, GrowError> {
        BitVec::packed_items(alloc, sequence, k)
    }

    /// Returns the low `k` bits of each number of a finite iterator, with zeros above its 8 bits.
    ///
    /// # Errors
    ///
    /// `TooLong` at the number that would exceed `MAX_LEN` bits; `Memory` if the allocator refuses a request.
    pub fn pack_from_iter_u8<I: Iterator<Item = u8>>(
        alloc: A,
        mut sequence: I,
        k: usize,
    ) -> Result<Self, GrowError> {
        BitVec::packed_items_of(alloc, &mut sequence, k)
    }

    /// Returns the low `k` bits of each number of a finite iterator, with zeros above its 16 bits.
    ///
    /// # Errors
    ///
    /// `TooLong` at the number that would exceed `MAX_LEN` bits; `Memory` if the allocator refuses a request.
    pub fn pack_from_iter_u16<I: Iterator<Item = u16>>(
        alloc: A,
        mut sequence: I,
        k: usize,
    ) -> Result<Self, GrowError> {
        BitVec::packed_items_of(alloc, &mut sequence, k)
    }

    /// Returns the low `k` bits of each number of a finite iterator, with zeros above its 32 bits.
    ///
    /// # Errors
    ///
    /// `TooLong` at the number that would exceed `MAX_LEN` bits; `Memory` if the allocator refuses a request.
    pub fn pack_from_iter_u32<I: Iterator<Item = u32>>(
        alloc: A,
        mut sequence: I,
        k: usize,
    ) -> Result<Self, GrowError> {
        BitVec::packed_items_of(alloc, &mut sequence, k)
    }

    /// Returns the low `k` bits of each number of a finite iterator, with zeros above its 64 bits.
    ///
    /// # Errors
    ///
    /// `TooLong` at the number that would exceed `MAX_LEN` bits; `Memory` if the allocator refuses a request.
    pub fn pack_from_iter_u64<I: Iterator<Item = u64>>(
        alloc: A,
        mut sequence: I,
        k: usize,
    ) -> Result<Self, GrowError> {
        BitVec::packed_items_of(alloc, &mut sequence, k)
    }
}

// Errors: `TooLong` if `len` is above `MAX_LEN`.
fn check_len(len: usize) -> Result<(), GrowError> {
    if len > MAX_LEN {
        return Err(GrowError::TooLong);
    }
    Ok(())
}

// Returns the number of bits of that many limbs. Errors: `TooLong` if it is above `MAX_LEN`.
fn bits_of_limbs(limbs: usize) -> Result<usize, GrowError> {
    if limbs > MAX_LEN / 64 {
        return Err(GrowError::TooLong);
    }
    Ok(64 * limbs)
}

// Returns a word of 64 equal bits.
fn equal_word(bit: bool) -> u64 {
    if bit { u64::MAX } else { 0 }
}

// Returns the number whose digits are the lowest bits of the items, the first item's lowest.
fn parities<T: Item>(items: &[T]) -> u64 {
    let mut word = 0;
    for position in (0..items.len()).rev() {
        word = 2 * word + u64::from(items[position].is_odd());
    }
    word
}

// Returns a number of `n` digits with one more digit above them.
fn with_digit(word: u64, n: usize, digit: bool) -> u64 {
    word | (u64::from(digit) << n)
}
