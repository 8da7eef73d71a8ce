//! Times of the intersection and the union of two lists, beside those of sorted vectors: `sets [PASSES]`. Each line has the
//! numbers of members, the limit of these, the nanoseconds of an intersection a member of the first list, those of a union
//! a number of the result, each with the ratio to that of sorted vectors, and the bytes a member of both lists.

#[path = "../../original/src/clock.rs"]
mod clock;

use std::hint::black_box;
use vers_vecs::{sets, EliasFanoVec};

/// The numbers of members of the two lists, and the binary digits of these.
const SIZES: [(usize, usize, u32); 8] = [
    (50_000, 50_000, 22),
    (5_000, 500_000, 22),
    (50_000, 500_000, 22),
    (500_000, 500_000, 22),
    (50_000, 50_000, 30),
    (5_000, 500_000, 30),
    (50_000, 500_000, 30),
    (500_000, 500_000, 30),
];

/// The generator splitmix64.
struct Random(u64);

impl Random {
    fn next(&mut self) -> u64 {
        self.0 = self.0.wrapping_add(0x9E37_79B9_7F4A_7C15);
        let z = (self.0 ^ (self.0 >> 30)).wrapping_mul(0xBF58_476D_1CE4_E5B9);
        let z = (z ^ (z >> 27)).wrapping_mul(0x94D0_49BB_1331_11EB);
        z ^ (z >> 31)
    }

    /// Returns `count` distinct numbers below `2^digits`, ascending.
    fn members(&mut self, count: usize, digits: u32) -> Vec<u64> {
        let mut members = Vec::new();
        while members.len() < count {
            let missing = count - members.len();
            members.extend((0..missing).map(|_| self.next() >> (64 - digits)));
            members.sort_unstable();
            members.dedup();
        }
        members
    }
}

/// Returns the numbers that are in both vectors: of the longer one, each member is searched in steps that double.
#[inline(never)]
fn both(shorter: &[u64], longer: &[u64]) -> Vec<u64> {
    let mut found = Vec::new();
    let mut from = 0;
    for x in shorter {
        let mut step = 1;
        while from + step < longer.len() && longer[from + step] < *x {
            from += step;
            step *= 2;
        }
        let to = (from + step + 1).min(longer.len());
        from += longer[from..to].partition_point(|y| y < x);
        if from == longer.len() {
            break;
        }
        if longer[from] == *x {
            found.push(*x);
        }
    }
    found
}

/// Returns the numbers that are in one of two vectors, or in both, by a merge.
#[inline(never)]
fn either(one: &[u64], other: &[u64]) -> Vec<u64> {
    let mut found = Vec::new();
    let (mut i, mut j) = (0, 0);
    while i < one.len() && j < other.len() {
        let (x, y) = (one[i], other[j]);
        if x < y {
            found.push(x);
            i += 1;
        } else {
            found.push(y);
            j += 1;
            i += usize::from(x == y);
        }
    }
    found.extend_from_slice(&one[i..]);
    found.extend_from_slice(&other[j..]);
    found
}

/// Returns the processor time of the thread in nanoseconds.
fn now() -> f64 {
    clock::processor_time().as_secs_f64() * 1e9
}

/// Puts the time of a run into `least` if it is less. Returns what the run returned.
fn timed<T>(least: &mut f64, run: impl FnOnce() -> T) -> T {
    let start = now();
    let result = black_box(run());
    *least = least.min(now() - start);
    result
}

/// Prints the line of two lists. The passes alternate between lists and vectors, and the least time counts.
fn compare(random: &mut Random, (few, many, digits): (usize, usize, u32), passes: usize) {
    let (one, other) = (random.members(few, digits), random.members(many, digits));
    let lists = [&one, &other].map(|it| EliasFanoVec::from_slice(it));
    let bytes = lists[0].heap_size() + lists[1].heap_size();
    let mut least = [f64::INFINITY; 4];
    let mut in_either = 0;
    for _ in 0..passes {
        let here = timed(&mut least[0], || sets::intersection(&lists[0], &lists[1]));
        let there = timed(&mut least[1], || both(&one, &other));
        assert!(here.iter().eq(there), "another intersection");
        let here = timed(&mut least[2], || sets::union(&lists[0], &lists[1]));
        let there = timed(&mut least[3], || either(&one, &other));
        in_either = there.len();
        assert!(here.iter().eq(there), "another union");
    }
    println!(
        "|{few}, {many}|2^{digits}|{:.1} ({:.2})|{:.1} ({:.2})|{:.2}|",
        least[0] / few as f64,
        least[0] / least[1],
        least[2] / in_either as f64,
        least[2] / least[3],
        bytes as f64 / (few + many) as f64,
    );
}

fn main() {
    let passes = std::env::args()
        .nth(1)
        .map_or(15, |it| it.parse().expect("a number of passes"));
    println!("|members|below|intersection|union|bytes a member|\n|---|---|---:|---:|---:|");
    let mut random = Random(1);
    for sizes in SIZES {
        compare(&mut random, sizes, passes);
    }
}
