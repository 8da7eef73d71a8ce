//! Progress of a long command, printed to standard error if that is a terminal.

use crate::rattle::prelude::*;
use std::io;
use std::io::IsTerminal;
use std::io::Read;

// The number of bytes from which a file is long.
const MANY: u64 = 1 << 18;

/// A file that is indexed, with a report of progress if it is long.
pub struct Progress<'a, F> {
    /// The system.
    pub rt: &'a HostRuntime,
    /// The name of the file.
    pub path: &'a str,
    file: F,
    count: u64,
}

impl<'a, F> Progress<'a, F> {
    /// Returns a file of which nothing has been read.
    pub fn new(rt: &'a HostRuntime, path: &'a str, file: F) -> Self {
        Progress {
            rt,
            path,
            file,
            count: 0,
        }
    }

    // Returns true if progress is reported: the file is long, and standard error is a terminal.
    fn is_reported(&self) -> bool {
        self.count >= MANY && self.rt.stderr().is_terminal()
    }

    // Reports that the last byte has been read.
    fn report_read(&self) {
        if self.is_reported() {
            let (path, count) = (self.path, self.count);
            let _ = crate::print_error!("vers: {path}: {count} bytes read, sorting their suffixes");
        }
    }

    /// Reports that the index has been saved.
    pub fn report_saved(&self, index: &str) {
        if self.is_reported() {
            let _ = crate::print_error!("vers: {index}: saved");
        }
    }
}

impl<F: Read> Read for Progress<'_, F> {
    fn read(&mut self, buf: &mut [u8]) -> io::Result<usize> {
        let result = self.file.read(buf);
        match &result {
            Ok(0) => self.report_read(),
            Ok(count) => self.count = self.count.saturating_add(*count as u64),
            Err(_) => {}
        }
        result
    }
}
