//! Lists of bits: [`BitVec`], which can change, and the structures made from it.

use crate::contracts::contract;
use crate::error::{granted, no_bit, BuildError};
use crate::items::{clones, iterates, iterator, iterators, lengths, shows};
use crate::proved::vers_bits::bit_vec as proved;
use crate::rattle::Global;
use crate::saved::saved;
use mask::MaskedBitVec;
use std::hash::{Hash, Hasher};

pub mod fast_rs_vec;
pub mod mask;
pub mod sparse;

const WORD_SIZE: usize = 64;

/// A list of bits and a mask, combined by a function pointer.
pub type BitMask<'s, 'b> = MaskedBitVec<'s, 'b, fn(u64, u64) -> u64>;

/// A list of bits that can change, packed into words (limbs) of 64 bits. Bit 0 is the lowest bit of the first limb.
///
/// ```
/// use vers_vecs::BitVec;
///
/// let mut bits = BitVec::new();
/// bits.append_bits(0b1011, 4);
/// bits.append(true);
/// bits.set(0, 0).unwrap();
/// assert_eq!(bits.iter().collect::<Vec<_>>(), [0, 1, 0, 1, 1]);
/// assert_eq!(bits.count_ones(), 3);
///
/// let flags: BitVec = [true, false, true].into_iter().collect();
/// assert_eq!(format!("{:?}", flags), "BitVec { len: 3, bits: [1, 0, 1] }");
/// ```
///
/// `collect` takes `bool`s as bits, and numbers of type `u64` as whole limbs.
pub struct BitVec {
    pub(crate) bits: proved::BitVec<Global>,
}

#[doc(hidden)]
impl From<proved::BitVec<Global>> for BitVec {
    fn from(bits: proved::BitVec<Global>) -> BitVec {
        BitVec { bits }
    }
}

impl Default for BitVec {
    fn default() -> BitVec {
        proved::BitVec::new(Global).into()
    }
}

impl PartialEq for BitVec {
    fn eq(&self, other: &BitVec) -> bool {
        self.bits == other.bits
    }
}

impl Eq for BitVec {}

impl Hash for BitVec {
    fn hash<H: Hasher>(&self, state: &mut H) {
        self.bits.hash(state);
    }
}

clones!(BitVec, bits);
shows!(BitVec, "bits", |bits| bits.iter());
lengths!(BitVec, bits, "bits", usize);
saved!(BitVec, bits);

/// Constructors from slices and numbers, each a call of the proved maker of the same name.
macro_rules! makers {
    ($($(#[$doc:meta])* $name:ident($($arg:ident: $kind:ty),*);)*) => {
        impl BitVec {
            $(
                $(#[$doc])*
                ///
                /// # Panics
                /// If the list would be too long, or there is no memory.
                #[doc = contract!(BitVec::$name)]
                #[must_use]
                #[track_caller]
                pub fn $name($($arg: $kind),*) -> Self {
                    granted(proved::BitVec::$name(Global, $($arg),*)).into()
                }
            )*
        }
    };
}

/// The same constructors, which return an error instead of a panic.
macro_rules! fallible_makers {
    ($($name:ident, $of:ident($arg:ident: $kind:ty);)*) => {
        impl BitVec {
            $(
                #[doc = concat!("Makes the list of [`", stringify!($of), "`](Self::", stringify!($of), ").")]
                ///
                /// # Errors
                /// `TooLong` or `OutOfMemory`, if the list can't be made.
                #[doc = contract!(BitVec::$of)]
                pub fn $name($arg: $kind) -> Result<Self, BuildError> {
                    Ok(proved::BitVec::$of(Global, $arg)?.into())
                }
            )*
        }
    };
}

/// Constructors from iterators.
macro_rules! makers_from_iterators {
    ($($(#[$doc:meta])* $name:ident($arg:ident: $item:ty $(, $k:ident: $size:ty)?);)*) => {
        impl BitVec {
            $(
                $(#[$doc])*
                ///
                /// # Panics
                /// If the list would be too long, or there is no memory.
                #[doc = contract!(BitVec::$name)]
                #[track_caller]
                pub fn $name<I: IntoIterator<Item = $item>>($arg: I $(, $k: $size)?) -> Self {
                    granted(proved::BitVec::$name(Global, $arg.into_iter() $(, $k)?)).into()
                }
            )*
        }
    };
}

makers! {
    /// Makes an empty list with room for `n` bits.
    with_capacity(n: usize);
    /// Makes a list of `n` zeros, in O(`n` / 64).
    from_zeros(n: usize);
    /// Makes a list of `n` ones, in O(`n` / 64).
    from_ones(n: usize);
    /// Makes a list of the lowest bit of each number.
    from_bits(bits: &[u8]);
    /// Makes a list of the lowest bit of each number.
    from_bits_u16(bits: &[u16]);
    /// Makes a list of the lowest bit of each number.
    from_bits_u32(bits: &[u32]);
    /// Makes a list of the lowest bit of each number.
    from_bits_u64(bits: &[u64]);
    /// Makes a list of all bits of the limbs: 64 for each.
    from_limbs(limbs: &[u64]);
    /// Makes a list with a one for each `true`.
    from_bools(bools: &[bool]);
    /// Makes a list of the low `k` bits of each number, with zeros above its 8 bits if `k` is greater.
    pack_sequence_u8(sequence: &[u8], k: usize);
    /// Makes a list of the low `k` bits of each number, with zeros above its 16 bits if `k` is greater.
    pack_sequence_u16(sequence: &[u16], k: usize);
    /// Makes a list of the low `k` bits of each number, with zeros above its 32 bits if `k` is greater.
    pack_sequence_u32(sequence: &[u32], k: usize);
    /// Makes a list of the low `k` bits of each number, with zeros above its 64 bits if `k` is greater.
    ///
    /// ```
    /// use vers_vecs::BitVec;
    ///
    /// let bits = BitVec::pack_sequence_u64(&[5, 2, 7], 3);
    /// assert_eq!(bits.len(), 9);
    /// assert_eq!(bits.unpack_element(1, 3), Some(2));
    /// ```
    pack_sequence_u64(sequence: &[u64], k: usize);
}

fallible_makers! {
    try_with_capacity, with_capacity(n: usize);
    try_from_zeros, from_zeros(n: usize);
    try_from_ones, from_ones(n: usize);
    try_from_limbs, from_limbs(limbs: &[u64]);
}

makers_from_iterators! {
    /// Makes a list with a one for each `true`.
    from_bool_iter(bools: bool);
    /// Makes a list of the low `k` bits of each number, with zeros above its 8 bits if `k` is greater.
    pack_from_iter_u8(sequence: u8, k: usize);
    /// Makes a list of the low `k` bits of each number, with zeros above its 16 bits if `k` is greater.
    pack_from_iter_u16(sequence: u16, k: usize);
    /// Makes a list of the low `k` bits of each number, with zeros above its 32 bits if `k` is greater.
    pack_from_iter_u32(sequence: u32, k: usize);
    /// Makes a list of the low `k` bits of each number, with zeros above its 64 bits if `k` is greater.
    pack_from_iter_u64(sequence: u64, k: usize);
}

/// Constructors.
impl BitVec {
    /// Makes an empty list, which takes no memory.
    #[doc = contract!(BitVec::new)]
    #[must_use]
    pub fn new() -> Self {
        Self::default()
    }

    /// Makes a list of all bits of the limbs: 64 for each. Takes over the memory of `limbs`.
    #[doc = contract!(BitVec::from_vec)]
    #[must_use]
    #[track_caller]
    pub fn from_vec(limbs: Vec<u64>) -> Self {
        granted(proved::BitVec::from_vec(crate::rattle::Vec::from_plain(limbs, Global))).into()
    }

    /// Makes a list of the lowest bit of each number.
    #[doc = contract!(BitVec::from_bits_iter)]
    #[must_use]
    #[track_caller]
    pub fn from_bits_iter<I, E>(bits: I) -> Self
    where
        E: Into<u64>,
        I: IntoIterator<Item = E>,
    {
        granted(proved::BitVec::from_bits_iter(Global, bits.into_iter().map(Into::into))).into()
    }

    /// Makes a list of all bits of the limbs: 64 for each.
    #[doc = contract!(BitVec::from_limbs_iter)]
    #[track_caller]
    pub fn from_limbs_iter<I, E>(limbs: I) -> Self
    where
        E: Into<u64>,
        I: IntoIterator<Item = E>,
    {
        granted(proved::BitVec::from_limbs_iter(Global, limbs.into_iter().map(Into::into))).into()
    }
}

/// Growth and changes. A call that panics leaves the list as it was.
impl BitVec {
    /// Appends a bit, in amortized O(1).
    #[doc = contract!(BitVec::append)]
    #[inline]
    #[track_caller]
    pub fn append(&mut self, bit: bool) {
        granted(self.bits.append(bit));
    }

    /// Appends the lowest bit of a number, in amortized O(1).
    #[doc = contract!(BitVec::append_bit)]
    #[inline]
    #[track_caller]
    pub fn append_bit(&mut self, number: u64) {
        granted(self.bits.append_bit(number));
    }

    /// Appends the lowest bit of a number, in amortized O(1).
    #[doc = contract!(BitVec::append_bit_u32)]
    #[track_caller]
    pub fn append_bit_u32(&mut self, number: u32) {
        granted(self.bits.append_bit_u32(number));
    }

    /// Appends the lowest bit of a number, in amortized O(1).
    #[doc = contract!(BitVec::append_bit_u16)]
    #[track_caller]
    pub fn append_bit_u16(&mut self, number: u16) {
        granted(self.bits.append_bit_u16(number));
    }

    /// Appends the lowest bit of a number, in amortized O(1).
    #[doc = contract!(BitVec::append_bit_u8)]
    #[track_caller]
    pub fn append_bit_u8(&mut self, number: u8) {
        granted(self.bits.append_bit_u8(number));
    }

    /// Appends the 64 bits of a word, the lowest first, in amortized O(1).
    #[doc = contract!(BitVec::append_word)]
    #[track_caller]
    pub fn append_word(&mut self, word: u64) {
        granted(self.bits.append_word(word));
    }

    /// Appends the low `len` bits of `bits`, the lowest first, in amortized O(1). Ignores the bits above them.
    ///
    /// # Panics
    /// If `len` is above 64.
    #[doc = contract!(BitVec::append_bits)]
    #[inline]
    #[track_caller]
    pub fn append_bits(&mut self, bits: u64, len: usize) {
        assert!(len <= WORD_SIZE, "at most 64 bits can be appended at once");
        granted(self.bits.append_bits(bits, len));
    }

    /// Appends as [`append_bits`](Self::append_bits) does.
    ///
    /// # Panics
    /// If `len` is above 64.
    #[doc = contract!(BitVec::append_bits_unchecked)]
    #[track_caller]
    pub fn append_bits_unchecked(&mut self, bits: u64, len: usize) {
        assert!(len <= WORD_SIZE, "at most 64 bits can be appended at once");
        granted(self.bits.append_bits_unchecked(bits, len));
    }

    /// Appends all bits of another list, in O(`other.len()` / 64).
    #[doc = contract!(BitVec::extend_bitvec)]
    #[track_caller]
    pub fn extend_bitvec(&mut self, other: &Self) {
        granted(self.bits.extend_bitvec(&other.bits));
    }

    /// Removes the last `n` bits, or all bits if there are fewer.
    #[doc = contract!(BitVec::drop_last)]
    pub fn drop_last(&mut self, n: usize) {
        self.bits.drop_last(n);
    }

    /// Inverts the bit at `position`.
    ///
    /// # Panics
    /// If `position` is past the end.
    #[doc = contract!(BitVec::flip_bit)]
    #[inline]
    #[track_caller]
    pub fn flip_bit(&mut self, position: usize) {
        if position >= self.len() {
            no_bit(position);
        }
        self.bits.flip_bit(position);
    }

    /// Inverts the bit at `position`, or does nothing if `position` is past the end but in the last limb.
    ///
    /// # Panics
    /// If no limb has the position.
    #[doc = contract!(BitVec::flip_bit_unchecked)]
    #[inline]
    #[track_caller]
    pub fn flip_bit_unchecked(&mut self, position: usize) {
        if position >= self.len() {
            return self.expect_limb(position);
        }
        self.bits.flip_bit_unchecked(position);
    }

    /// Sets the bit at `position` to the lowest bit of `value`.
    ///
    /// # Errors
    /// If `position` is past the end; nothing changes then.
    #[doc = contract!(BitVec::set)]
    #[inline]
    pub fn set(&mut self, position: usize, value: u64) -> Result<(), &'static str> {
        self.bits.set(position, value).map_err(|_| "out of range")
    }

    /// Sets the bit at `position` to the lowest bit of `value`, or does nothing if `position` is past the end but in the
    /// last limb.
    ///
    /// # Panics
    /// If no limb has the position.
    #[doc = contract!(BitVec::set)]
    #[track_caller]
    pub fn set_unchecked(&mut self, position: usize, value: u64) {
        if self.bits.set(position, value).is_err() {
            self.expect_limb(position);
        }
    }

    /// Splits the list into the bits before `at` and those from `at` on. The first part keeps the memory.
    ///
    /// # Errors
    /// If `at` is above the length: the list itself.
    #[doc = contract!(BitVec::split_at)]
    #[track_caller]
    pub fn split_at(self, at: usize) -> Result<(Self, Self), Self> {
        match self.bits.split_at(at) {
            Ok((first, rest)) => Ok((first.into(), rest.into())),
            Err(proved::SplitError { vec, cause: proved::SplitCause::OutOfRange }) => Err(vec.into()),
            Err(_) => granted(Err(BuildError::OutOfMemory)),
        }
    }

    /// Splits the list into the bits before `at` and those from `at` on. The first part keeps the memory.
    ///
    /// # Panics
    /// If `at` is above the length.
    #[doc = contract!(BitVec::split_at)]
    #[must_use]
    #[track_caller]
    pub fn split_at_unchecked(self, at: usize) -> (Self, Self) {
        match self.split_at(at) {
            Ok(parts) => parts,
            Err(_) => panic!("the list can't be split at {}", at),
        }
    }
}

/// Queries. Those of one bit or word take constant time.
impl BitVec {
    /// Panics if no limb has a position that is past the end.
    #[cold]
    #[inline(never)]
    #[track_caller]
    fn expect_limb(&self, position: usize) {
        let limbs = (self.len() + WORD_SIZE - 1) / WORD_SIZE;
        assert!(position / WORD_SIZE < limbs, "no word has a bit at {}", position);
    }

    /// Returns the bit at `position`, or `None` past the end.
    #[doc = contract!(BitVec::get)]
    #[must_use]
    #[inline]
    pub fn get(&self, position: usize) -> Option<u64> {
        self.bits.get(position)
    }

    /// Returns the bit at `position`, or 0 past the end in the last limb.
    ///
    /// # Panics
    /// If no limb has the position.
    #[doc = contract!(BitVec::get)]
    #[must_use]
    #[inline]
    #[track_caller]
    pub fn get_unchecked(&self, position: usize) -> u64 {
        match self.bits.get(position) {
            Some(found) => found,
            None => {
                self.expect_limb(position);
                0
            }
        }
    }

    /// Returns true if the bit at `position` is a one, or `None` past the end.
    #[doc = contract!(BitVec::is_bit_set)]
    #[must_use]
    #[inline]
    pub fn is_bit_set(&self, position: usize) -> Option<bool> {
        self.bits.is_bit_set(position)
    }

    /// Returns true if the bit at `position` is a one, and false past the end in the last limb.
    ///
    /// # Panics
    /// If no limb has the position.
    #[doc = contract!(BitVec::is_bit_set)]
    #[must_use]
    #[inline]
    #[track_caller]
    pub fn is_bit_set_unchecked(&self, position: usize) -> bool {
        match self.bits.is_bit_set(position) {
            Some(found) => found,
            None => {
                self.expect_limb(position);
                false
            }
        }
    }

    /// Returns the `n` bits from `position` on as a number, the first bit lowest. `None` if the list has fewer, or `n` is
    /// 0 or above 64.
    #[doc = contract!(BitVec::get_bits)]
    #[must_use]
    #[inline]
    pub fn get_bits(&self, position: usize, n: usize) -> Option<u64> {
        self.bits.get_bits(position, n)
    }

    /// Returns the `n` bits from `position` on as a number, the first bit lowest: 0 for no bits, and zeros past the end in
    /// the last limb.
    ///
    /// # Panics
    /// If no limb has one of the positions, or `n` is above 64.
    #[doc = contract!(BitVec::get_bits)]
    #[must_use]
    #[inline]
    #[track_caller]
    pub fn get_bits_unchecked(&self, position: usize, n: usize) -> u64 {
        match self.bits.get_bits(position, n) {
            Some(found) => found,
            None => self.partial_bits(position, n),
        }
    }

    /// Returns the bits that [`get_bits`](Self::get_bits) doesn't: none, or those before the end.
    #[cold]
    #[inline(never)]
    #[track_caller]
    fn partial_bits(&self, position: usize, n: usize) -> u64 {
        assert!(n <= WORD_SIZE, "at most 64 bits can be read at once");
        if n == 0 {
            return 0;
        }
        self.expect_limb(position.saturating_add(n - 1));
        self.bits.get_bits(position, self.len().saturating_sub(position)).unwrap_or(0)
    }

    /// Returns the `n` bits at position `index * n` as a number. `None` if the list has fewer, or `n` is 0 or above 64.
    #[doc = contract!(BitVec::unpack_element)]
    #[must_use]
    #[inline]
    pub fn unpack_element(&self, index: usize, n: usize) -> Option<u64> {
        self.bits.unpack_element(index, n)
    }

    /// Returns the `n` bits at position `index * n` as a number: 0 for no bits, and zeros past the end in the last
    /// limb.
    ///
    /// # Panics
    /// If no limb has one of the positions, or `n` is above 64.
    #[doc = contract!(BitVec::unpack_element)]
    #[must_use]
    #[track_caller]
    pub fn unpack_element_unchecked(&self, index: usize, n: usize) -> u64 {
        match self.bits.unpack_element(index, n) {
            Some(found) => found,
            None => self.partial_bits(index.saturating_mul(n), n),
        }
    }

    /// Returns the number of ones, in O(`len` / 64).
    #[doc = contract!(BitVec::count_ones)]
    #[must_use]
    pub fn count_ones(&self) -> u64 {
        self.bits.count_ones()
    }

    /// Returns the number of zeros, in O(`len` / 64).
    #[doc = contract!(BitVec::count_zeros)]
    #[must_use]
    pub fn count_zeros(&self) -> u64 {
        self.bits.count_zeros()
    }

    /// Iterates over the limbs; the last one has zeros past the length.
    #[doc = contract!(BitVec::iter_limbs)]
    pub fn iter_limbs(&self) -> LimbIter<'_> {
        LimbIter(self.bits.iter_limbs())
    }
}

/// Masks by one operation: a view, and a change in place.
macro_rules! masks {
    ($($what:literal, $mask:ident, $apply:ident, $operation:expr;)*) => {
        /// Masks. The other list has the same length.
        impl BitVec {
            $(
                #[doc = concat!("Returns a view in which each bit is combined with one of `other` by ", $what, ".")]
                ///
                /// # Errors
                /// If the lengths differ.
                #[doc = contract!(BitVec::$mask)]
                pub fn $mask<'s, 'b>(&'s self, other: &'b BitVec) -> Result<BitMask<'s, 'b>, String> {
                    MaskedBitVec::new(self, other, $operation)
                }

                #[doc = concat!("Combines each bit with one of `other` by ", $what, ", in O(`len` / 64).")]
                ///
                /// # Errors
                /// If the lengths differ; nothing changes then.
                #[doc = contract!(BitVec::$apply)]
                pub fn $apply(&mut self, other: &BitVec) -> Result<(), String> {
                    self.bits.$apply(&other.bits).map_err(|error| error.to_string())
                }
            )*
        }
    };
}

masks! {
    "or", mask_or, apply_mask_or, |a, b| a | b;
    "and", mask_and, apply_mask_and, |a, b| a & b;
    "exclusive or", mask_xor, apply_mask_xor, |a, b| a ^ b;
}

impl BitVec {
    /// Returns a view of the list whose limbs are those that `mask` makes from a limb of this list and one of `other`.
    ///
    /// # Errors
    /// If the lengths differ.
    #[doc = contract!(BitVec::mask_custom)]
    pub fn mask_custom<'s, 'b, F>(&'s self, other: &'b BitVec, mask: F) -> Result<MaskedBitVec<'s, 'b, F>, String>
    where
        F: Fn(u64, u64) -> u64,
    {
        MaskedBitVec::new(self, other, mask)
    }

    /// Replaces each limb by what `mask` makes from it and a limb of `other`, in O(`len` / 64). If `mask` panics, the
    /// list is empty afterwards.
    ///
    /// # Errors
    /// If the lengths differ; nothing changes then.
    #[doc = contract!(BitVec::apply_mask_custom)]
    pub fn apply_mask_custom(&mut self, other: &BitVec, mask: fn(u64, u64) -> u64) -> Result<(), String> {
        // A panic of `mask` drops the list that is half changed.
        let mut taken = std::mem::take(self);
        let done = taken.bits.apply_mask_custom(&other.bits, mask);
        *self = taken;
        done.map_err(|error| error.to_string())
    }
}

iterators! {
    /// Iterates over the bits of a [`BitVec`].
    BitVecIter [] [] = proved::BitVecIter<Global>, BitVecRefIter ['a] ['a] = proved::BitVecRefIter<'a, Global>, u64
}

iterator! {
    /// Iterates over the limbs of a [`BitVec`].
    LimbIter ['a] ['a] = proved::LimbIter<'a, Global>, u64, |it| it.clone()
}

iterates! { BitVec, bits, "bits", u64, BitVecIter, BitVecRefIter }

impl From<&[u64]> for BitVec {
    /// Makes a list of all bits of the limbs.
    fn from(limbs: &[u64]) -> Self {
        BitVec::from_limbs(limbs)
    }
}

impl From<Vec<u64>> for BitVec {
    /// Makes a list of all bits of the limbs.
    fn from(limbs: Vec<u64>) -> Self {
        BitVec::from_vec(limbs)
    }
}

impl FromIterator<u64> for BitVec {
    /// Makes a list of all bits of the limbs.
    fn from_iter<T: IntoIterator<Item = u64>>(iter: T) -> Self {
        BitVec::from_limbs_iter(iter)
    }
}

impl FromIterator<bool> for BitVec {
    /// Makes a list with a one for each `true`.
    fn from_iter<T: IntoIterator<Item = bool>>(iter: T) -> Self {
        BitVec::from_bool_iter(iter)
    }
}

// Each item is appended before the next is asked for, so an iterator that panics leaves a valid list.
macro_rules! extends {
    ($([$($life:lifetime)?] $item:ty, |$list:ident, $it:ident| $append:expr;)*) => {
        $(impl $(<$life>)? Extend<$item> for BitVec {
            fn extend<T: IntoIterator<Item = $item>>(&mut self, iter: T) {
                let $list = self;
                iter.into_iter().for_each(|$it| $append);
            }
        })*
    };
}

extends! {
    [] BitVec, |list, bits| list.extend_bitvec(&bits);
    ['t] &'t BitVec, |list, bits| list.extend_bitvec(bits);
    [] bool, |list, bit| list.append(bit);
    ['t] &'t bool, |list, bit| list.append(*bit);
}
