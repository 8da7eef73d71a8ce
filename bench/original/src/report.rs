//! What is printed: a line for each series, with its checksum, and with its time where one is asked for.

use crate::clock::processor_time;
use std::time::Duration;

/// How the series are run.
#[derive(Clone)]
pub enum Mode {
    /// Once, for the checksums alone.
    Checksums,
    /// Several times, for the median of the times, over sizes divided by a number.
    Times { repetitions: usize, divisor: usize },
}

/// What the arguments ask for.
#[derive(Clone)]
pub struct Settings {
    /// What the lines name the driver.
    pub name: String,
    /// The structures to run; all where there are none.
    pub structures: Vec<String>,
    pub mode: Mode,
    /// The one size of structures, instead of the usual ones: of bits, members, symbols, items or nodes. Then each has
    /// the first kind of data alone, and no series that goes over all of it but builds.
    pub size: Option<usize>,
}

impl Settings {
    pub fn from_words(mut words: impl Iterator<Item = String>) -> Result<Self, String> {
        let (mut name, mut structures) = (None, Vec::new());
        let (mut repetitions, mut divisor, mut size) = (5, 1, None);
        let number = |word: Option<String>| {
            let word = word.ok_or("an option wants a number")?;
            word.parse::<usize>().map_err(|_| format!("{word} is no number"))
        };
        while let Some(word) = words.next() {
            match word.as_str() {
                "--small" => divisor = 16,
                "--reps" => repetitions = number(words.next())?,
                "--size" => size = Some(number(words.next())?),
                _ if name.is_none() => name = Some(word),
                _ => structures.push(word),
            }
        }
        Ok(match name {
            None => Settings { name: String::new(), structures, mode: Mode::Checksums, size },
            Some(name) => {
                Settings { name, structures, mode: Mode::Times { repetitions: repetitions.max(1), divisor }, size }
            }
        })
    }

    /// The same, whose lines begin with the name of a type too.
    #[cfg(feature = "own")]
    pub fn of_type(&self, name: &str) -> Self {
        Settings { name: format!("{} {name}", self.name), ..self.clone() }
    }

    /// A size, divided by what all sizes are divided by.
    pub fn scaled(&self, size: usize) -> usize {
        match self.mode {
            Mode::Checksums => size / 16,
            Mode::Times { divisor, .. } => size / divisor,
        }
    }

    /// The sizes of a structure: the one that is asked for, or a usual one, and in a run with times a large one too.
    pub fn sizes(&self, usual: usize, large: usize) -> Vec<usize> {
        match (self.size, &self.mode) {
            (Some(size), _) => vec![size],
            (None, Mode::Checksums) => vec![self.scaled(usual)],
            (None, Mode::Times { .. }) => vec![self.scaled(usual), self.scaled(large)],
        }
    }

    /// The size of a structure: the one that is asked for, or the usual one, divided as all are.
    pub fn size_or(&self, usual: usize) -> usize {
        self.size.unwrap_or_else(|| self.scaled(usual))
    }

    /// The kinds of data: the first alone where one size is asked for.
    pub fn kinds<'a, T>(&self, kinds: &'a [T]) -> &'a [T] {
        if self.size.is_some() { &kinds[..1] } else { kinds }
    }

    pub fn wants(&self, structure: &str) -> bool {
        self.structures.is_empty() || self.structures.iter().any(|it| it == structure)
    }

    fn repetitions(&self) -> usize {
        match self.mode {
            Mode::Checksums => 1,
            Mode::Times { repetitions, .. } => repetitions,
        }
    }
}

/// A structure over some data, of which each operation is a series.
pub struct Series<'a> {
    pub settings: &'a Settings,
    pub structure: &'static str,
    /// The data: how much, and what kind.
    pub parameters: String,
}

impl Series<'_> {
    fn print(&self, operation: &str, value: f64, checksum: u64) {
        let Series { settings, structure, parameters } = self;
        match settings.mode {
            Mode::Checksums => println!("{structure}\t{operation}\t{parameters}\t{checksum:016x}"),
            Mode::Times { .. } => {
                println!("{}\t{structure}\t{operation}\t{parameters}\t{value:.3}\t{checksum:016x}", settings.name)
            }
        }
    }

    /// Prints a size, where times are asked for: it is no series, and has no checksum.
    pub fn size(&self, operation: &str, value: f64) {
        if matches!(self.settings.mode, Mode::Times { .. }) {
            self.print(operation, value, 0);
        }
    }

    /// Runs `count` operations: `pass` does them all and returns the checksum.
    pub fn run(&self, operation: &str, count: usize, mut pass: impl FnMut() -> u64) {
        let mut checksum = 0;
        let times = (0..self.settings.repetitions()).map(|_| {
            let start = processor_time();
            checksum = one_pass(&mut pass);
            processor_time() - start
        });
        let time = median(times.collect());
        self.print(operation, per_operation(time, count), checksum);
    }

    /// The same of a walk over all of the structure.
    pub fn walk(&self, operation: &str, count: usize, pass: impl FnMut() -> u64) {
        if self.settings.size.is_none() {
            self.run(operation, count, pass);
        }
    }

    /// Runs the making of a value of `count` items. The time is that of `make` alone: what the value is made of comes
    /// from `input`, and the value is dropped after the time is taken.
    pub fn build<I, T>(
        &self,
        operation: &str,
        count: usize,
        checksum: u64,
        input: impl Fn() -> I,
        make: impl Fn(I) -> T,
    ) {
        let times = (0..self.settings.repetitions()).map(|_| {
            let given = input();
            let start = processor_time();
            let made = make(given);
            let time = processor_time() - start;
            drop(made);
            time
        });
        let time = median(times.collect());
        self.print(operation, per_operation(time, count), checksum);
    }
}

// A function of its own in the machine code, so that a profiler counts the instructions of a pass.
#[inline(never)]
fn one_pass(pass: &mut impl FnMut() -> u64) -> u64 {
    pass()
}

fn per_operation(time: Duration, count: usize) -> f64 {
    time.as_nanos() as f64 / count.max(1) as f64
}

fn median(mut times: Vec<Duration>) -> Duration {
    times.sort_unstable();
    times[times.len() / 2]
}
