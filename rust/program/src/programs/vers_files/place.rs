//! Files whose bytes are replaced atomically.

use crate::rattle::prelude::*;

use crate::rattle::fs::File;
use crate::rattle::fs::Files;
use std::io::Write;
use crate::rattle::fs::Path;
use crate::rattle::fs;
use std::io;

/// A file, or another place, whose bytes are replaced atomically: new ones are written to a temporary one,
/// synced, renamed to it, and then settled.
pub trait Place {
    /// The temporary file.
    type Beside: Write;

    /// Creates the temporary file. Errors: it can't be created, for example because another save has begun, and
    /// neither put nor left it.
    fn begin(&mut self) -> io::Result<Self::Beside>;

    /// Syncs what was written.
    fn sync(&mut self, beside: &Self::Beside) -> io::Result<()>;

    /// Replaces the place's bytes by those synced.
    fn put(&mut self) -> io::Result<()>;

    /// Syncs the replacement, so that it stays even if the machine fails.
    fn settle(&mut self) -> io::Result<()>;

    /// Removes the temporary file.
    fn leave(&mut self);
}

/// A file, with a temporary file under another name. Contracts know nothing of the bytes of a file.
pub struct FilePlace<'a, R: Files<File = File>> {
    /// The file system.
    pub files: &'a R,
    /// The name of the file.
    pub path: &'a str,
    /// The name of the temporary file.
    pub beside: &'a str,
}

// Returns the folder of a file.
fn folder_of(path: &str) -> Path<'_> {
    match Path::new(path).parent() {
        Some(folder) if !folder.as_str().is_empty() => folder,
        _ => Path::new("."),
    }
}

impl<R: Files<File = File>> Place for FilePlace<'_, R> {
    type Beside = File;

    // The temporary file has the permissions of the file that it replaces.
    fn begin(&mut self) -> io::Result<File> {
        let beside = File::create_new(self.files, self.beside)?;
        if let Ok(replaced) = fs::metadata(self.files, self.path) {
            if let Err(error) = beside.set_permissions(replaced.permissions()) {
                self.leave();
                return Err(error);
            }
        }
        Ok(beside)
    }

    fn sync(&mut self, beside: &File) -> io::Result<()> {
        beside.sync_all()
    }

    fn put(&mut self) -> io::Result<()> {
        fs::rename(self.files, self.beside, self.path)
    }

    fn settle(&mut self) -> io::Result<()> {
        File::open(self.files, folder_of(self.path))?.sync_all()
    }

    fn leave(&mut self) {
        let _left = fs::remove_file(self.files, self.beside);
    }
}
