//! `Saved`: lists that are saved to bytes and loaded from them.

use crate::rattle::prelude::*;

use crate::proved::vers_saved::VERSION;
use crate::proved::vers_saved::fault::{LoadError, SaveError};
use crate::proved::vers_saved::form::{Form, Shape, form_of, put_head, put_words};
use crate::proved::vers_saved::kind::Kind;
use crate::proved::vers_saved::words::{FRAME, put_word};
use crate::rattle::AllocError;
use crate::rattle::Allocator;

/// A list that has a saved form, by its words. A list that satisfies `IsWhole` and `Fits` is loaded as it was
/// saved.
pub trait Saved {
    /// What a save makes once of a list, so that the words are copied faster.
    type Prepared: Sized;

    /// Returns the kind of such lists.
    fn kind() -> Kind;

    /// Returns the shape of the list, or `None` if a list of this kind may not have it.
    fn shape(&self) -> Option<Shape>;

    /// Returns word `k`. Precondition: the list has a saved form, and `k` is below the number of words.
    fn word(&self, k: usize) -> u64;

    /// Copies the words from word `from` on, as many as the slice has. Precondition: the list has a saved form,
    /// and has these words.
    fn copy_words(&self, from: usize, out: &mut [u64]) {
        for k in 0..out.len() {
            out[k] = self.word(from + k);
        }
    }

    /// Returns what `copy_prepared` takes. May allocate, and needs no memory: if a request is refused, the words are
    /// copied as by `copy_words`.
    fn prepare(&self) -> Self::Prepared;

    /// Copies the words that `copy_words` does. Precondition: the same, and `prepared` was made of the list.
    fn copy_prepared(&self, _prepared: &Self::Prepared, from: usize, out: &mut [u64]) {
        self.copy_words(from, out)
    }
}

/// A list that is made of the words that it was saved by, in memory of an allocator `A`.
pub trait Loaded<A: Allocator>: Saved + Sized {
    /// Returns the list of the items in these words, which are taken out of the vector. Precondition: the words
    /// are those of a list of that shape. Errors: `AllocError` if the allocator refuses a request.
    fn make(of: Shape, held: &mut Vec<u64, A>) -> Result<Self, AllocError>;

    /// Returns the list of the items in these words, which are those of the first version of the form.
    /// Precondition: the words are those of a list of that shape, one item after another. Errors: `AllocError` if
    /// the allocator refuses a request, or if the kind has no later version.
    fn make_packed(_of: Shape, _held: &mut Vec<u64, A>) -> Result<Self, AllocError> {
        Err(AllocError)
    }
}

// Returns the number of words of a list of that shape.
pub(crate) fn count_words<S: Saved>(list: &S, shape: Shape) -> usize {
    match S::kind().rows_of_items(shape.count, shape.width) {
        Some(rows) => rows.words(),
        None => 0,
    }
}

/// Returns the number of bytes of the saved form of a list, or `None` if it has none.
pub fn saved_size<S: Saved>(list: &S) -> Option<usize> {
    let shape = list.shape()?;
    Some(8 * (count_words(list, shape) + FRAME))
}

// The number of words copied out of a list at once.
pub(crate) const GROUP: usize = 512;

// Appends `n` words of a list from a position on, for which there is room. Returns the sum with them mixed in.
pub(crate) fn put_group<S: Saved, B: Allocator>(
    out: &mut Vec<u8, B>,
    sum: u64,
    list: &S,
    prepared: &S::Prepared,
    from: usize,
    n: usize,
) -> u64 {
    let mut group = [0; GROUP];
    let words = &mut group[..n];
    list.copy_prepared(prepared, from, words);
    put_words(out, sum, words)
}

// Appends the saved form of a list with that shape. On error the bytes are unchanged.
fn append_saved<S: Saved, B: Allocator>(
    list: &S,
    shape: Shape,
    out: &mut Vec<u8, B>,
) -> Result<(), AllocError> {
    let count = count_words(list, shape);
    out.reserve(8 * (count + FRAME))?;
    let prepared = list.prepare();
    let mut sum = put_head(out, &S::kind(), shape);
    let mut done = 0;
    while done < count {
        let n = GROUP.min(count - done);
        sum = put_group(out, sum, list, &prepared, done, n);
        done += n;
    }
    put_word(out, sum);
    Ok(())
}

/// Appends the saved form of a list. On error the bytes are unchanged.
///
/// # Errors
///
/// `NoForm` if the list has no saved form; `Memory` if the allocator refuses a request.
pub fn save_to_vec<S: Saved, B: Allocator>(list: &S, out: &mut Vec<u8, B>) -> Result<(), SaveError> {
    let shape = match list.shape() { Some(shape) => shape, _ => {
        return Err(SaveError::NoForm);
    } };
    append_saved(list, shape, out)?;
    Ok(())
}

// Returns the list of the items in the words of a version of its form, which are taken out of the vector.
pub(crate) fn list_of<S: Loaded<A>, A: Allocator>(
    version: u64,
    of: Shape,
    held: &mut Vec<u64, A>,
) -> Result<S, AllocError> {
    if S::kind().has_first() && version == VERSION {
        return S::make_packed(of, held);
    }
    S::make(of, held)
}

/// Loads a list from its saved form, in any version.
///
/// # Errors
///
/// That of the first test that fails; `Memory` only if the bytes pass all tests.
pub fn load_from_slice<S: Loaded<A>, A: Allocator>(alloc: A, bytes: &[u8]) -> Result<S, LoadError> {
    let Form {
        version,
        shape,
        mut words,
    } = form_of(alloc, S::kind(), bytes)?;
    Ok(list_of(version, shape, &mut words)?)
}
