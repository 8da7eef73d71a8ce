//! Texts that count and locate patterns, which the crate vers-vecs doesn't have.

use crate::contracts::contract;
use crate::error::{granted, BuildError};
use crate::items::{clones, compares, counted, lengths, shows};
use crate::proved::text_index as proved;
use crate::proved::vers_saved::texts::load_text_from_slice;
use crate::rattle::Global;
use crate::reads::Tally;
use crate::saved::{bytes_of, LoadError, SaveError, Saved};
use crate::wavelet_tree::numbers;
use std::ops::Range;

/// The distance between two sampled positions, if the caller doesn't choose it.
const DEFAULT_STEP: usize = 32;

/// A compressed text of symbols that counts and locates patterns. The empty pattern occurs at each position and at the
/// end. Texts are equal if their symbols and the bits of a symbol are, whatever the step.
///
/// ```
/// use vers_vecs::text::TextIndex;
///
/// let text = TextIndex::from_bytes(b"abracadabra", 8).unwrap();
/// assert_eq!(text.count_bytes("abra"), 2);
/// assert_eq!(text.places_bytes(b"abra"), [0, 7]);
/// assert_eq!(text.extract_bytes(7..11), Some(b"abra".to_vec()));
///
/// let text = TextIndex::from_slice(&[5, 300, 5, 300, 7], 9).unwrap();
/// assert_eq!(text.places(&[5, 300]), [0, 2]);
/// ```
///
/// An index is saved with its column, so that a load sorts nothing:
///
/// ```
/// use vers_vecs::saved::{LoadError, Saved};
/// use vers_vecs::text::TextIndex;
///
/// let bytes = TextIndex::from_bytes(b"abracadabra", 8).unwrap().save().unwrap();
/// assert_eq!(TextIndex::load(&bytes).unwrap().places_bytes(b"br"), [1, 8]);
/// assert_eq!(TextIndex::load(&bytes[8..]).unwrap_err(), LoadError::NotOurs);
/// ```
pub struct TextIndex {
    text: proved::TextIndex<Global>,
}

impl TextIndex {
    /// Indexes symbols, and samples every 32nd position.
    ///
    /// # Errors
    /// Those of [`with_step`](Self::with_step).
    #[doc = contract!(TextIndex::from_slice)]
    pub fn from_slice(symbols: &[u64], bits_per_symbol: u16) -> Result<Self, BuildError> {
        TextIndex::with_step(symbols, bits_per_symbol, DEFAULT_STEP)
    }

    /// Indexes symbols, and samples every `step`-th position: locating an occurrence takes fewer than `step` LF steps,
    /// and a smaller `step` takes more memory.
    ///
    /// # Errors
    /// `UnsupportedWidth` if `bits_per_symbol` is 0 or above 16, `SymbolTooWide` if a symbol has more bits, `ZeroStep`,
    /// `TooLong` if there are more than 2^32 - 2 symbols, and `OutOfMemory`.
    #[doc = contract!(TextIndex::with_step)]
    pub fn with_step(symbols: &[u64], bits_per_symbol: u16, step: usize) -> Result<Self, BuildError> {
        made(proved::TextIndex::with_step(Global, symbols, bits_per_symbol, step), symbols, bits_per_symbol)
    }

    /// Indexes bytes, and samples every 32nd position. Doesn't copy the bytes.
    ///
    /// ```
    /// use vers_vecs::text::TextIndex;
    ///
    /// let text = TextIndex::from_bytes(b"abracadabra", 8).unwrap();
    /// assert_eq!(text.count_bytes(b"br"), 2);
    /// ```
    ///
    /// # Errors
    /// Those of [`with_step`](Self::with_step).
    #[doc = contract!(TextIndex::from_bytes)]
    pub fn from_bytes(bytes: &[u8], bits_per_symbol: u16) -> Result<Self, BuildError> {
        TextIndex::bytes_with_step(bytes, bits_per_symbol, DEFAULT_STEP)
    }

    /// Indexes bytes, and samples every `step`-th position.
    ///
    /// # Errors
    /// Those of [`with_step`](Self::with_step).
    #[doc = contract!(TextIndex::bytes_with_step)]
    pub fn bytes_with_step(bytes: &[u8], bits_per_symbol: u16, step: usize) -> Result<Self, BuildError> {
        made(proved::TextIndex::bytes_with_step(Global, bytes, bits_per_symbol, step), bytes, bits_per_symbol)
    }

    /// Indexes numbers of 16 bits, and samples every 32nd position.
    ///
    /// # Errors
    /// Those of [`with_step`](Self::with_step).
    #[doc = contract!(TextIndex::from_u16s)]
    pub fn from_u16s(numbers: &[u16], bits_per_symbol: u16) -> Result<Self, BuildError> {
        TextIndex::u16s_with_step(numbers, bits_per_symbol, DEFAULT_STEP)
    }

    /// Indexes numbers of 16 bits, and samples every `step`-th position.
    ///
    /// # Errors
    /// Those of [`with_step`](Self::with_step).
    #[doc = contract!(TextIndex::u16s_with_step)]
    pub fn u16s_with_step(numbers: &[u16], bits_per_symbol: u16, step: usize) -> Result<Self, BuildError> {
        made(proved::TextIndex::u16s_with_step(Global, numbers, bits_per_symbol, step), numbers, bits_per_symbol)
    }

    /// Returns the number of bits of a symbol.
    #[doc = contract!(TextIndex::bits_per_symbol)]
    #[must_use]
    pub fn bits_per_symbol(&self) -> u16 {
        self.text.bits_per_symbol()
    }

    /// Returns the distance between two sampled positions.
    #[doc = contract!(TextIndex::step)]
    #[must_use]
    pub fn step(&self) -> usize {
        self.text.step()
    }

    /// Returns the number of occurrences of a pattern. The cost depends on the pattern's length and the depths of its
    /// symbols, not on the text's length.
    #[doc = contract!(TextIndex::count)]
    #[must_use]
    pub fn count(&self, pattern: &[u64]) -> usize {
        self.text.count(pattern)
    }

    /// Returns the number of occurrences of a pattern of bytes, as [`count`](Self::count) does for the same numbers.
    #[doc = contract!(TextIndex::count)]
    #[must_use]
    pub fn count_bytes<P: AsRef<[u8]> + ?Sized>(&self, pattern: &P) -> usize {
        self.count(&symbols_of(pattern.as_ref()))
    }

    /// Returns the number of occurrences of each of some patterns, in less time than [`count`](Self::count) for each if
    /// the text has some millions of symbols.
    ///
    /// ```
    /// use vers_vecs::text::TextIndex;
    ///
    /// let text = TextIndex::from_bytes(b"abracadabra", 8).unwrap();
    /// assert_eq!(text.count_each(&[&[98, 114], &[97], &[120]]), [2, 5, 0]);
    /// ```
    #[doc = contract!(TextIndex::count_each)]
    #[must_use]
    pub fn count_each(&self, patterns: &[&[u64]]) -> Vec<usize> {
        let mut counts = vec![0; patterns.len()];
        self.text.count_each(patterns, &mut counts);
        counts
    }

    /// Returns the number of occurrences of each of some patterns of bytes, as [`count_each`](Self::count_each) does
    /// for the same numbers.
    ///
    /// ```
    /// use vers_vecs::text::TextIndex;
    ///
    /// let text = TextIndex::from_bytes(b"abracadabra", 8).unwrap();
    /// assert_eq!(text.count_each_bytes(&["br", "a", "x"]), [2, 5, 0]);
    /// ```
    #[doc = contract!(TextIndex::count_each)]
    #[must_use]
    pub fn count_each_bytes<P: AsRef<[u8]>>(&self, patterns: &[P]) -> Vec<usize> {
        let symbols: Vec<Vec<u64>> = patterns.iter().map(|pattern| symbols_of(pattern.as_ref())).collect();
        self.count_each(&symbols.iter().map(Vec::as_slice).collect::<Vec<_>>())
    }

    /// Returns true if a pattern occurs.
    #[doc = contract!(TextIndex::contains)]
    #[must_use]
    pub fn contains(&self, pattern: &[u64]) -> bool {
        self.text.contains(pattern)
    }

    /// Returns true if a pattern of bytes occurs, as [`contains`](Self::contains) does for the same numbers.
    #[doc = contract!(TextIndex::contains)]
    #[must_use]
    pub fn contains_bytes<P: AsRef<[u8]> + ?Sized>(&self, pattern: &P) -> bool {
        self.contains(&symbols_of(pattern.as_ref()))
    }

    /// Returns all positions of a pattern, ascending.
    #[doc = contract!(TextIndex::places_ascending)]
    #[must_use]
    #[track_caller]
    pub fn places(&self, pattern: &[u64]) -> Vec<usize> {
        granted(self.text.places_ascending(pattern)).into_plain()
    }

    /// Returns all positions of a pattern of bytes, ascending, as [`places`](Self::places) does for the same
    /// numbers.
    #[doc = contract!(TextIndex::places_ascending)]
    #[must_use]
    pub fn places_bytes<P: AsRef<[u8]> + ?Sized>(&self, pattern: &P) -> Vec<usize> {
        self.places(&symbols_of(pattern.as_ref()))
    }

    /// Returns the first `limit` positions of a pattern, or all if there are fewer, in the order of the suffixes there.
    #[doc = contract!(TextIndex::first_places)]
    #[must_use]
    #[track_caller]
    pub fn first_places(&self, pattern: &[u64], limit: usize) -> Vec<usize> {
        granted(self.text.first_places(pattern, limit)).into_plain()
    }

    /// Returns the first `limit` positions of a pattern of bytes, as [`first_places`](Self::first_places) does for the
    /// same numbers.
    #[doc = contract!(TextIndex::first_places)]
    #[must_use]
    pub fn first_places_bytes<P: AsRef<[u8]> + ?Sized>(&self, pattern: &P, limit: usize) -> Vec<usize> {
        self.first_places(&symbols_of(pattern.as_ref()), limit)
    }

    /// Returns the symbols of a range. `None` if the range ends past the end, or before its start.
    #[doc = contract!(TextIndex::extract)]
    #[must_use]
    #[track_caller]
    pub fn extract(&self, range: Range<usize>) -> Option<Vec<u64>> {
        Some(granted(self.text.extract(range))?.into_plain())
    }

    /// Returns the symbols of a range as bytes. `None` if the range ends past the end, or before its start, or a symbol
    /// may have more than 8 bits.
    #[doc = contract!(TextIndex::extract)]
    #[must_use]
    pub fn extract_bytes(&self, range: Range<usize>) -> Option<Vec<u8>> {
        if self.bits_per_symbol() > 8 {
            return None;
        }
        Some(self.extract(range)?.into_iter().map(|symbol| symbol as u8).collect())
    }

    /// Does the same as [`extract`](Self::extract), and adds the reads to `tally`.
    #[doc = contract!(TextIndex::extract_counted)]
    #[track_caller]
    pub fn extract_counted(&self, range: Range<usize>, tally: &mut Tally) -> Option<Vec<u64>> {
        Some(granted(self.text.extract_counted(range, &mut tally.0))?.into_plain())
    }

    /// Does the same as [`first_places`](Self::first_places), and adds the reads to `tally`.
    #[doc = contract!(TextIndex::first_places_counted)]
    #[track_caller]
    pub fn first_places_counted(&self, pattern: &[u64], limit: usize, tally: &mut Tally) -> Vec<usize> {
        granted(self.text.first_places_counted(pattern, limit, &mut tally.0)).into_plain()
    }
}

/// Returns bytes as symbols.
fn symbols_of(bytes: &[u8]) -> Vec<u64> {
    bytes.iter().map(|byte| u64::from(*byte)).collect()
}

/// Returns an index that was made, or why it wasn't.
fn made<T: Copy + Into<u64>>(
    text: Result<proved::TextIndex<Global>, proved::TextError>,
    symbols: &[T],
    bits_per_symbol: u16,
) -> Result<TextIndex, BuildError> {
    match text {
        Ok(text) => Ok(TextIndex { text }),
        Err(proved::TextError::WidthOutOfRange) => Err(BuildError::UnsupportedWidth { bits: bits_per_symbol }),
        Err(proved::TextError::NoStep) => Err(BuildError::ZeroStep),
        Err(proved::TextError::TooLong) => Err(BuildError::TooLong),
        Err(proved::TextError::WideSymbol) => {
            let is_narrow = |symbol: &&T| (**symbol).into() >> bits_per_symbol == 0;
            Err(BuildError::SymbolTooWide { position: symbols.iter().take_while(is_narrow).count() })
        }
        Err(proved::TextError::Memory) => Err(BuildError::OutOfMemory),
    }
}

impl Default for TextIndex {
    /// Returns the index of an empty text of bytes.
    fn default() -> Self {
        granted(TextIndex::from_bytes(&[], 8))
    }
}

impl Saved for TextIndex {
    fn save(&self) -> Result<Vec<u8>, SaveError> {
        bytes_of(&self.text)
    }

    fn load(bytes: &[u8]) -> Result<Self, LoadError> {
        Ok(TextIndex { text: load_text_from_slice(Global, bytes)? })
    }
}

counted! { TextIndex, text:
    count_counted, count(pattern: &[u64]) -> usize;
    contains_counted, contains(pattern: &[u64]) -> bool;
}

clones!(TextIndex, text);
// The column and the row of the whole text determine the text, as it determines them.
compares!(TextIndex, |it| std::iter::once(it.text.whole_row() as u64).chain(numbers(it.text.column())));
shows!(TextIndex, "symbols", |text| text.extract(0..text.len().min(40)).unwrap_or_default().into_iter());
lengths!(TextIndex, text, "symbols", usize);
