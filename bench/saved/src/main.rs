//! Sizes and times of saved forms, beside those of vers-vecs by serde and bincode: `saved [PASSES] [DIVISOR]`. Each row
//! of the table has the least processor times of all passes, which alternate between both libraries, in milliseconds,
//! and the lesser of each two values in bold. A copy is one of the bytes of this library's form. A divisor divides all
//! sizes.

#[path = "../../original/src/clock.rs"]
mod clock;
#[allow(dead_code)]
#[path = "../../original/src/workload.rs"]
mod workload;

use clock::processor_time;
use serde::{de::DeserializeOwned, Serialize};
use std::hint::black_box;
use std::time::Duration;
use vers_vecs::saved::Saved;
use workload::{limbs, parentheses, symbols, Random};

/// The least time of some work that is done again and again.
struct Least(Duration);

impl Least {
    fn new() -> Self {
        Least(Duration::MAX)
    }

    /// Does the work once. Its result is dropped by the caller, after the time is taken.
    fn time<T>(&mut self, work: impl FnOnce() -> T) -> T {
        let start = processor_time();
        let made = black_box(work());
        self.0 = self.0.min(processor_time() - start);
        made
    }

    fn milliseconds(&self) -> f64 {
        self.0.as_secs_f64() * 1e3
    }
}

/// Returns the cells of our value and of theirs, the lesser in bold.
fn pair(ours: f64, theirs: f64, digits: usize) -> String {
    let cell = |value: f64, other: f64| {
        if value < other {
            format!("**{value:.digits$}**")
        } else {
            format!("{value:.digits$}")
        }
    };
    format!("{}|{}", cell(ours, theirs), cell(theirs, ours))
}

/// Prints the row of a structure that both libraries make. Each form that is loaded is saved again, as the same bytes.
fn compare<Ours: Saved, Theirs: Serialize + DeserializeOwned>(
    name: &str,
    passes: usize,
    make_ours: impl Fn() -> Ours,
    make_theirs: impl Fn() -> Theirs,
) {
    let [mut build, mut save, mut load] = [(); 3].map(|()| [Least::new(), Least::new()]);
    let mut copy = Least::new();
    let mut sizes = [0, 0];
    for _ in 0..passes {
        let (ours, theirs) = (build[0].time(&make_ours), build[1].time(&make_theirs));
        let our_form = save[0].time(|| ours.save().unwrap());
        let their_form = save[1].time(|| bincode::serialize(&theirs).unwrap());
        drop(copy.time(|| our_form.to_vec()));
        let our_copy = load[0].time(|| Ours::load(&our_form).unwrap());
        let their_copy = load[1].time(|| bincode::deserialize::<Theirs>(&their_form).unwrap());
        assert!(
            our_copy.save().unwrap() == our_form,
            "{name} has another form"
        );
        assert!(
            bincode::serialize(&their_copy).unwrap() == their_form,
            "{name} has another form by bincode"
        );
        sizes = [our_form.len(), their_form.len()];
    }
    let bytes = pair(sizes[0] as f64, sizes[1] as f64, 0);
    let [build, save, load] = [build, save, load]
        .map(|[ours, theirs]| pair(ours.milliseconds(), theirs.milliseconds(), 2));
    println!(
        "|{name}|{bytes}|{save}|{load}|{:.2}|{build}|",
        copy.milliseconds()
    );
}

/// Returns ascending numbers with a mean distance.
fn ascending(count: usize, distance: u64) -> Vec<u64> {
    let mut random = Random::new(2);
    let steps = (0..count).map(|_| 1 + random.below(2 * distance - 1));
    steps
        .scan(0, |number, step| {
            *number += step;
            Some(*number)
        })
        .collect()
}

fn compare_numbers(passes: usize, count: usize, distance: u64) {
    let numbers = ascending(count, distance);
    compare(
        &format!("`EliasFanoVec`, {count} elements, density 1/{distance}"),
        passes,
        || vers_vecs::EliasFanoVec::from_slice(&numbers),
        || original::EliasFanoVec::from_slice(&numbers),
    );
}

fn compare_bits(passes: usize, len: usize) {
    let limbs = limbs(len / 64, 50);
    compare(
        &format!("`BitVec`, {len} bits"),
        passes,
        || vers_vecs::BitVec::from_limbs(&limbs),
        || original::BitVec::from_limbs(&limbs),
    );
    compare(
        &format!("`RsVec`, {len} bits"),
        passes,
        || vers_vecs::RsVec::from_bit_vec(vers_vecs::BitVec::from_limbs(&limbs)),
        || original::RsVec::from_bit_vec(original::BitVec::from_limbs(&limbs)),
    );
}

fn compare_symbols(passes: usize, count: usize) {
    let symbols = symbols(count, 8);
    compare(
        &format!("`WaveletMatrix`, {count} symbols of 8 bits"),
        passes,
        || vers_vecs::WaveletMatrix::from_slice(&symbols, 8),
        || original::WaveletMatrix::from_slice(&symbols, 8),
    );
}

fn compare_trees(passes: usize, nodes: usize) {
    let limbs = parentheses(nodes * 2);
    let padding = limbs.len() * 64 - nodes * 2;
    compare(
        &format!("`BpTree`, {nodes} nodes"),
        passes,
        || {
            let mut bits = vers_vecs::BitVec::from_limbs(&limbs);
            bits.drop_last(padding);
            vers_vecs::BpTree::<512>::from_bit_vector(bits)
        },
        || {
            let mut bits = original::BitVec::from_limbs(&limbs);
            bits.drop_last(padding);
            original::BpTree::<512>::from_bit_vector(bits)
        },
    );
}

fn main() {
    let mut numbers = std::env::args()
        .skip(1)
        .map(|it| it.parse::<usize>().expect("arguments are numbers").max(1));
    let (passes, divisor) = (numbers.next().unwrap_or(5), numbers.next().unwrap_or(1));
    println!("|structure|bytes|bincode, bytes|save|bincode, save|load|bincode, load|copy|build|vers-vecs, build|");
    println!("|---|{}", "---:|".repeat(9));
    compare_bits(passes, (1 << 26) / divisor);
    compare_numbers(passes, 10_000_000 / divisor, 8);
    compare_numbers(passes, 10_000_000 / divisor, 100);
    compare_symbols(passes, 10_000_000 / divisor);
    compare_trees(passes, 10_000_000 / divisor);
}
