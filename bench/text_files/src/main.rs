//! Builds the text index of each file, and counts patterns: `text_files SIZE FILE..`, of a file its first SIZE bytes that
//! aren't 0. `fibonacci` is a Fibonacci word, `bases` are random letters of 2 bits, and neither is a file. Each line has
//! the file, the number of symbols, the nanoseconds a symbol of a build, those of a count of 16 symbols, the bytes a symbol
//! of the index, the sum of the counts, and the nanoseconds a symbol of a save and of a load. Three more have the length
//! of patterns, the nanoseconds of one `count`, those of each of 10,000 patterns of a `count_each`, and the sum of the
//! counts.

use std::time::Instant;
use vers_vecs::saved::Saved;
use vers_vecs::text::TextIndex;

const PATTERNS: usize = 10_000;
const LENGTH: usize = 16;

/// The generator splitmix64.
struct Random(u64);

impl Random {
    fn below(&mut self, bound: u64) -> u64 {
        self.0 = self.0.wrapping_add(0x9E37_79B9_7F4A_7C15);
        let z = (self.0 ^ (self.0 >> 30)).wrapping_mul(0xBF58_476D_1CE4_E5B9);
        let z = (z ^ (z >> 27)).wrapping_mul(0x94D0_49BB_1331_11EB);
        (z ^ (z >> 31)) % bound
    }
}

fn fibonacci(size: usize) -> Vec<u8> {
    let (mut text, mut before) = (b"a".to_vec(), b"b".to_vec());
    while text.len() < size {
        let next = [&text[..], &before].concat();
        before = std::mem::replace(&mut text, next);
    }
    text
}

fn text_of(name: &str, size: usize) -> std::io::Result<Vec<u8>> {
    let mut random = Random(1);
    let mut text = match name {
        "fibonacci" => fibonacci(size),
        "bases" => (0..size).map(|_| b"ACGT"[random.below(4) as usize]).collect(),
        _ => std::fs::read(name)?,
    };
    text.retain(|it| *it != 0);
    text.truncate(size);
    Ok(text)
}

/// Returns the least time of three runs, in nanoseconds, and what the last one returned.
fn timed<T>(mut run: impl FnMut() -> T) -> (f64, T) {
    let mut least = f64::INFINITY;
    let mut last = None;
    for _ in 0..3 {
        drop(last.take());
        let start = Instant::now();
        last = Some(run());
        least = least.min(start.elapsed().as_secs_f64() * 1e9);
    }
    (least, last.expect("three runs"))
}

/// Returns random pieces of a text.
fn patterns_of(text: &[u8], length: usize) -> Vec<Vec<u64>> {
    let mut random = Random(7);
    (0..PATTERNS)
        .map(|_| random.below((text.len() - length) as u64) as usize)
        .map(|at| text[at..at + length].iter().map(|it| u64::from(*it)).collect())
        .collect()
}

/// Returns the nanoseconds of a count, alone and in a batch, in runs that alternate, and the sum of all.
fn counts(index: &TextIndex, patterns: &[Vec<u64>]) -> (f64, f64, usize) {
    let pieces: Vec<&[u64]> = patterns.iter().map(Vec::as_slice).collect();
    let (mut one, mut each, mut sum) = (f64::INFINITY, f64::INFINITY, 0);
    for _ in 0..5 {
        let (time, single) = timed(|| pieces.iter().map(|it| index.count(it)).collect::<Vec<_>>());
        one = one.min(time);
        let (time, counts) = timed(|| index.count_each(&pieces));
        each = each.min(time);
        assert_eq!(single, counts);
        sum = counts.iter().sum();
    }
    (one / PATTERNS as f64, each / PATTERNS as f64, sum)
}

fn main() -> Result<(), Box<dyn std::error::Error>> {
    let mut arguments = std::env::args().skip(1);
    let size = arguments
        .next()
        .ok_or("usage: text_files SIZE FILE..")?
        .parse()?;
    for name in arguments {
        let text = text_of(&name, size)?;
        let (build, index) = timed(|| TextIndex::from_bytes(&text, 8).expect("memory"));
        let patterns = patterns_of(&text, LENGTH);
        let (count, sum) = timed(|| patterns.iter().map(|it| index.count(it)).sum::<usize>());
        let (symbols, bytes) = (text.len() as f64, index.heap_size() as f64);
        let (save, form) = timed(|| index.save().expect("memory"));
        let (load, _) = timed(|| TextIndex::load(&form).expect("a saved index"));
        println!(
            "{name}\t{}\t{:.1}\t{:.0}\t{:.2}\t{sum}\t{:.1}\t{:.1}",
            text.len(),
            build / symbols,
            count / PATTERNS as f64,
            bytes / symbols,
            save / symbols,
            load / symbols
        );
        for length in [8, 16, 32] {
            let (one, each, sum) = counts(&index, &patterns_of(&text, length));
            println!("{name}\t{length}\t{one:.0}\t{each:.0}\t{sum}");
        }
    }
    Ok(())
}
