//! Saved forms: structures as bytes, which each later version of the library reads.
//!
//! ```
//! use vers_vecs::saved::{LoadError, Saved};
//! use vers_vecs::EliasFanoVec;
//!
//! let list = EliasFanoVec::from_slice(&[2, 5, 5, 90]);
//! let bytes = list.save().unwrap();
//! assert_eq!(EliasFanoVec::load(&bytes).unwrap(), list);
//! assert_eq!(EliasFanoVec::load(&bytes[1..]).unwrap_err(), LoadError::NotOurs);
//! ```

use std::error::Error;
use std::fmt;
use std::io::{self, Read, Write};

use crate::proved::vers_saved::fault;
use crate::proved::vers_saved::saved as proved;
use crate::rattle::Global;

/// The saved form of a type that is one proved structure.
macro_rules! saved {
    ($name:ident, $field:ident) => {
        impl $crate::saved::Saved for $name {
            fn save(&self) -> Result<Vec<u8>, $crate::saved::SaveError> {
                $crate::saved::bytes_of(&self.$field)
            }

            fn load(bytes: &[u8]) -> Result<Self, $crate::saved::LoadError> {
                Ok($name { $field: $crate::saved::loaded(bytes)? })
            }
        }
    };
}

pub(crate) use saved;

/// Returns the saved form of a proved structure.
pub(crate) fn bytes_of<S: proved::Saved>(list: &S) -> Result<Vec<u8>, SaveError> {
    let mut bytes = crate::rattle::Vec::new(Global);
    proved::save_to_vec(list, &mut bytes)?;
    Ok(bytes.into_plain())
}

/// Returns the proved structure of a saved form.
pub(crate) fn loaded<S: proved::Loaded<Global>>(bytes: &[u8]) -> Result<S, LoadError> {
    Ok(proved::load_from_slice(Global, bytes)?)
}

/// A structure with a saved form.
pub trait Saved: Sized {
    /// Returns the saved form, in O(its length).
    ///
    /// # Errors
    /// `NoForm` for symbols of no bits or more than 64, and `OutOfMemory`.
    fn save(&self) -> Result<Vec<u8>, SaveError>;

    /// Makes the structure of a saved form, in O(`bytes.len()`). No bytes make this call panic, or the structure return
    /// wrong answers.
    ///
    /// # Errors
    /// The first test that fails.
    fn load(bytes: &[u8]) -> Result<Self, LoadError>;

    /// Writes the saved form to a writer, such as a file.
    ///
    /// ```
    /// use vers_vecs::saved::Saved;
    /// use vers_vecs::RsVec;
    ///
    /// let (bits, mut file) = (RsVec::default(), Vec::new());
    /// bits.save_to(&mut file).unwrap();
    /// assert_eq!(RsVec::load_from(&file[..]).unwrap(), bits);
    /// ```
    ///
    /// # Errors
    /// That of the writer, or one of the kind `Other` with the [`SaveError`], before which nothing is written.
    fn save_to<W: Write>(&self, mut writer: W) -> io::Result<()> {
        let bytes = self.save().map_err(|error| io::Error::new(io::ErrorKind::Other, error))?;
        writer.write_all(&bytes)
    }

    /// Makes the structure of a saved form, which the reader returns up to its end.
    ///
    /// # Errors
    /// That of the reader, or one of the kind `InvalidData` with the [`LoadError`].
    fn load_from<R: Read>(mut reader: R) -> io::Result<Self> {
        let mut bytes = Vec::new();
        reader.read_to_end(&mut bytes)?;
        Self::load(&bytes).map_err(|error| io::Error::new(io::ErrorKind::InvalidData, error))
    }
}

/// Why a structure can't be saved.
#[derive(Clone, Copy, PartialEq, Eq, Hash, Debug)]
#[non_exhaustive]
pub enum SaveError {
    /// The structure has no saved form: its symbols have no bits or more than 64.
    NoForm,
    /// An allocation failed.
    OutOfMemory,
}

/// Why bytes are no saved form of a structure.
#[derive(Clone, Copy, PartialEq, Eq, Hash, Debug)]
#[non_exhaustive]
pub enum LoadError {
    /// There are fewer bytes than a saved form has, or than its head says.
    TooShort,
    /// The bytes do not begin as a saved form does.
    NotOurs,
    /// The saved form is of another version.
    OtherVersion,
    /// The bytes are the saved form of another kind of structure.
    OtherKind,
    /// No such structure is as long, or there are more bytes.
    BadLength,
    /// The sum is not that of the bytes before it.
    BadSum,
    /// A bit is set past the end of the list.
    BadPadding,
    /// The numbers do not ascend as those of the structure do.
    NotAscending,
    /// No text has the column and the rows of the saved form.
    NotAText,
    /// An allocation failed.
    OutOfMemory,
}

#[doc(hidden)]
impl From<fault::LoadError> for LoadError {
    fn from(error: fault::LoadError) -> LoadError {
        match error {
            // Nothing is read from a reader here.
            fault::LoadError::TooShort | fault::LoadError::Read => LoadError::TooShort,
            fault::LoadError::NotOurs => LoadError::NotOurs,
            fault::LoadError::OtherVersion => LoadError::OtherVersion,
            fault::LoadError::OtherKind => LoadError::OtherKind,
            fault::LoadError::BadLength => LoadError::BadLength,
            fault::LoadError::BadSum => LoadError::BadSum,
            fault::LoadError::BadPadding => LoadError::BadPadding,
            fault::LoadError::NotAscending => LoadError::NotAscending,
            fault::LoadError::NotAText => LoadError::NotAText,
            fault::LoadError::Memory => LoadError::OutOfMemory,
        }
    }
}

#[doc(hidden)]
impl From<fault::SaveError> for SaveError {
    fn from(error: fault::SaveError) -> SaveError {
        match error {
            fault::SaveError::NoForm => SaveError::NoForm,
            // Nothing is written to a writer here.
            fault::SaveError::Memory | fault::SaveError::Write => SaveError::OutOfMemory,
        }
    }
}

impl fmt::Display for LoadError {
    fn fmt(&self, f: &mut fmt::Formatter<'_>) -> fmt::Result {
        f.write_str(match self {
            LoadError::TooShort => "the bytes are no saved form, or are cut off",
            LoadError::NotOurs => "the bytes do not begin as a saved form does",
            LoadError::OtherVersion => "the saved form is of another version",
            LoadError::OtherKind => "the saved form is of another kind of structure",
            LoadError::BadLength => "no such structure is as long, or the bytes go on after it",
            LoadError::BadSum => "the sum is not that of the bytes before it",
            LoadError::BadPadding => "a bit is set past the end of the list",
            LoadError::NotAscending => "the numbers do not ascend",
            LoadError::NotAText => "no text has the column and the rows of the saved form",
            LoadError::OutOfMemory => "out of memory",
        })
    }
}

impl fmt::Display for SaveError {
    fn fmt(&self, f: &mut fmt::Formatter<'_>) -> fmt::Result {
        f.write_str(match self {
            SaveError::NoForm => "symbols of no bits or more than 64 have no saved form",
            SaveError::OutOfMemory => "out of memory",
        })
    }
}

impl Error for LoadError {}

impl Error for SaveError {}
