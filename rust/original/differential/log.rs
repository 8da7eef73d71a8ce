//! What both sides share: random numbers, and the log of the calls with their answers.

use std::fmt::Write;
use std::panic::{catch_unwind, AssertUnwindSafe};

/// Numbers that look random, the same for the same seed.
#[derive(Clone)]
pub struct Random(pub u64);

impl Random {
    pub fn next(&mut self) -> u64 {
        self.0 = self.0.wrapping_add(0x9e37_79b9_7f4a_7c15);
        let mixed = (self.0 ^ self.0 >> 30).wrapping_mul(0xbf58_476d_1ce4_e5b9);
        let mixed = (mixed ^ mixed >> 27).wrapping_mul(0x94d0_49bb_1331_11eb);
        mixed ^ mixed >> 31
    }

    /// A number below a bound, 0 if that is 0.
    pub fn below(&mut self, bound: usize) -> usize {
        (self.next() % (bound as u64).max(1)) as usize
    }

    /// One of some elements.
    pub fn of<T: Copy>(&mut self, all: &[T]) -> T {
        all[self.below(all.len())]
    }

    /// A length around words, blocks and superblocks.
    pub fn length(&mut self) -> usize {
        let near = self.of(&[0, 1, 64, 128, 512, 1024, 4096, 8192, 8192, 16384]);
        match self.below(4) {
            0 => near,
            1 => near + self.below(3),
            2 => near.saturating_sub(1 + self.below(2)),
            _ => near + self.below(700),
        }
    }

    /// A position in a list of a length, at its borders, past its end or far from it.
    pub fn position(&mut self, len: usize) -> usize {
        match self.below(12) {
            0 => self.of(&[0, 1, 63, 64, 65, 511, 512, 513, 8191, 8192]),
            1 => (len + self.below(3)).saturating_sub(1),
            2 => len + self.below(200),
            3 if self.below(3) == 0 => usize::MAX - self.of(&[0, 1, 62, 63, 64]),
            _ => self.below(len),
        }
    }

    /// A range in a list of a length: mostly within, seldom reversed or past the end.
    pub fn range(&mut self, len: usize) -> std::ops::Range<usize> {
        let (a, b) = (self.position(len), self.position(len));
        match self.below(8) {
            0 => a..b,
            _ => a.min(b)..a.max(b),
        }
    }
}

/// A call that was made.
pub struct Call {
    pub name: String,
    /// Its arguments, and what else the table of differences wants to know.
    pub arguments: Vec<u64>,
    /// How long the list is.
    pub len: u64,
    pub answer: String,
}

/// The calls that were made, in order.
#[derive(Default)]
pub struct Log {
    pub calls: Vec<Call>,
    /// How long the list is that is asked.
    pub len: usize,
}

impl Log {
    /// Makes a call, whose panic is an answer too.
    pub fn ask(&mut self, name: &str, arguments: Vec<u64>, call: impl FnOnce() -> String) {
        let answer = catch_unwind(AssertUnwindSafe(call)).unwrap_or_else(|_| "panic".into());
        self.calls.push(Call { name: name.into(), arguments, len: self.len as u64, answer });
    }
}

/// What is answered, as text.
pub trait Shown {
    fn shown(&self) -> String;
}

macro_rules! shown {
    ($($name:ty),*) => { $(impl Shown for $name {
        fn shown(&self) -> String {
            self.to_string()
        }
    })* };
}

shown!(u16, u64, i64, usize, bool, String, str);

impl Shown for () {
    fn shown(&self) -> String {
        "done".into()
    }
}

impl<T: Shown + ?Sized> Shown for &T {
    fn shown(&self) -> String {
        T::shown(self)
    }
}

impl<T: Shown> Shown for Option<T> {
    fn shown(&self) -> String {
        self.as_ref().map_or("none".into(), T::shown)
    }
}

impl<T: Shown, E: Shown> Shown for Result<T, E> {
    fn shown(&self) -> String {
        match self {
            Ok(made) => made.shown(),
            Err(error) => format!("error {}", error.shown()),
        }
    }
}

impl<S: Shown, T: Shown> Shown for (S, T) {
    fn shown(&self) -> String {
        format!("{} {}", self.0.shown(), self.1.shown())
    }
}

impl<T: Shown> Shown for Vec<T> {
    fn shown(&self) -> String {
        let mut text = format!("{} elements", self.len());
        let mut sum = 0;
        for (k, element) in self.iter().enumerate() {
            let shown = element.shown();
            sum = shown.bytes().fold(sum, |sum: u64, byte| (sum ^ u64::from(byte)).wrapping_mul(0x100_0000_01b3));
            if k < 12 {
                let _ = write!(text, " {shown}");
            }
        }
        format!("{text} sum {sum:x}")
    }
}

/// Makes a call and writes it into a log: its name, its arguments and its answer.
#[macro_export]
macro_rules! ask {
    ($log:expr, $name:expr, [$($argument:expr),*], $call:expr) => {
        $log.ask($name, vec![$($argument as u64),*], || $crate::log::Shown::shown(&$call))
    };
}
