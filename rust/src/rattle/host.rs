//! What programs get from the system.

use std::io::{self, Write};
use std::process;

use super::{AllocError, Allocator, Global, Vec};

/// The runtime that a program or a test gets.
#[derive(Clone, Copy)]
pub struct HostRuntime;

impl HostRuntime {
    /// Returns its heap.
    pub fn alloc(&self) -> Global {
        Global
    }

    /// Returns standard input.
    pub fn stdin(&self) -> io::Stdin {
        io::stdin()
    }

    /// Returns standard output.
    pub fn stdout(&self) -> Stdout {
        Stdout(io::stdout())
    }

    /// Returns standard error.
    pub fn stderr(&self) -> io::Stderr {
        io::stderr()
    }
}

/// Standard output. When its reader has gone, as `head` does, a write ends the program without a message, with the status
/// by which a shell shows that SIGPIPE ended a program.
pub struct Stdout(io::Stdout);

impl Write for Stdout {
    fn write(&mut self, buf: &[u8]) -> io::Result<usize> {
        self.0.write(buf).map_err(unless_unread)
    }

    fn flush(&mut self) -> io::Result<()> {
        self.0.flush().map_err(unless_unread)
    }
}

fn unless_unread(error: io::Error) -> io::Error {
    if error.kind() == io::ErrorKind::BrokenPipe {
        process::exit(128 + 13);
    }
    error
}

/// Arguments.
pub mod env {
    use super::{AllocError, Allocator, HostRuntime, Vec};
    use std::io;

    /// The arguments of a program.
    pub struct Args(std::vec::Vec<String>);

    impl Args {
        /// Returns the arguments in a list.
        pub fn collect<A: Allocator>(self, alloc: A) -> Result<Vec<String, A>, AllocError> {
            let mut words = Vec::new(alloc);
            for word in self.0 {
                words.push(word)?;
            }
            Ok(words)
        }
    }

    /// Returns the arguments of the program, which are texts.
    pub fn args(_: &HostRuntime) -> io::Result<Args> {
        let words: Result<_, _> = std::env::args_os().map(|it| it.into_string()).collect();
        words.map(Args).map_err(|_| io::ErrorKind::InvalidInput.into())
    }
}

/// Prints a line to standard output, and returns whether it was written.
#[macro_export]
macro_rules! print_line {
    ($($word:tt)*) => {{
        use std::io::Write;
        writeln!($crate::rattle::host::HostRuntime.stdout(), $($word)*)
    }};
}

/// Prints a line to standard error, and returns whether it was written.
#[macro_export]
macro_rules! print_error {
    ($($word:tt)*) => {{
        use std::io::Write;
        writeln!(std::io::stderr(), $($word)*)
    }};
}
