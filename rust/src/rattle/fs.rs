//! Files, for programs.

use std::fs;
use std::io;
use std::io::{Read, Write};

use super::host::HostRuntime;

/// A file system.
pub trait Files {
    /// Its files.
    type File;
}

impl Files for HostRuntime {
    type File = File;
}

/// The path of a file.
#[derive(Clone, Copy)]
pub struct Path<'a>(&'a str);

impl<'a> Path<'a> {
    /// Returns the path with this text.
    pub fn new(path: &'a str) -> Self {
        Path(path)
    }

    /// Returns its text.
    pub fn as_str(self) -> &'a str {
        self.0
    }

    /// Returns the path without its last part, or `None` if it has no part.
    pub fn parent(self) -> Option<Self> {
        std::path::Path::new(self.0).parent()?.to_str().map(Path)
    }
}

impl<'a> From<&'a str> for Path<'a> {
    fn from(path: &'a str) -> Self {
        Path(path)
    }
}

/// The path of a file, on the heap.
pub struct PathBuf(String);

impl PathBuf {
    /// Returns the path.
    pub fn as_path(&self) -> Path<'_> {
        Path(&self.0)
    }
}

/// An open file.
pub struct File(fs::File);

impl File {
    /// Opens a file to read it.
    pub fn open<'a, R: Files<File = File>>(_files: &R, path: impl Into<Path<'a>>) -> io::Result<File> {
        fs::File::open(path.into().0).map(File)
    }

    /// Creates a file, which must not be there, to write it.
    pub fn create_new<R: Files<File = File>>(_files: &R, path: &str) -> io::Result<File> {
        fs::OpenOptions::new().write(true).create_new(true).open(path).map(File)
    }

    /// Replaces its permissions.
    pub fn set_permissions(&self, permissions: fs::Permissions) -> io::Result<()> {
        self.0.set_permissions(permissions)
    }

    /// Waits until the file is on its disk.
    pub fn sync_all(&self) -> io::Result<()> {
        self.0.sync_all()
    }
}

impl Read for File {
    fn read(&mut self, buf: &mut [u8]) -> io::Result<usize> {
        self.0.read(buf)
    }
}

impl Write for File {
    fn write(&mut self, buf: &[u8]) -> io::Result<usize> {
        self.0.write(buf)
    }

    fn flush(&mut self) -> io::Result<()> {
        self.0.flush()
    }
}

/// Returns what the system says of a file.
pub fn metadata<R: Files<File = File>>(_files: &R, path: &str) -> io::Result<fs::Metadata> {
    fs::metadata(path)
}

/// Returns the path of a file without links.
pub fn canonicalize<R: Files<File = File>>(_files: &R, path: &str) -> io::Result<PathBuf> {
    let path = fs::canonicalize(path)?.into_os_string().into_string();
    path.map(PathBuf).map_err(|_| io::ErrorKind::InvalidData.into())
}

/// Renames a file.
pub fn rename<R: Files<File = File>>(_files: &R, from: &str, to: &str) -> io::Result<()> {
    fs::rename(from, to)
}

/// Removes a file.
pub fn remove_file<R: Files<File = File>>(_files: &R, path: &str) -> io::Result<()> {
    fs::remove_file(path)
}
