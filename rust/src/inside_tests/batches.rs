//! Counts in groups, which the library makes only in columns of 2 MiB or more.

use super::xorshift;
use crate::proved::text_index::TextIndex;
use crate::proved::vers_tally::tally::Tally;
use crate::rattle::Global;

type Plain<T> = std::vec::Vec<T>;

/// The number of positions of a text, its end included, at which a pattern occurs.
fn occurrences(symbols: &[u64], pattern: &[u64]) -> usize {
    (0..=symbols.len()).filter(|position| symbols[*position..].starts_with(pattern)).count()
}

/// Patterns of 0 to 40 symbols: pieces of a text, pieces with another first symbol, and pieces that end with a symbol
/// that the text can't have.
fn patterns_of(symbols: &[u64], count: usize, seed: u64) -> Plain<Plain<u64>> {
    let numbers = xorshift(2 * count, seed);
    (0..count)
        .map(|k| {
            let start = numbers[2 * k] as usize % (symbols.len() + 1);
            let len = (numbers[2 * k + 1] as usize % 41).min(symbols.len() - start);
            let mut pattern = symbols[start..start + len].to_vec();
            match k % 5 {
                1 if len > 0 => pattern[0] ^= 1,
                2 => pattern.push(u64::MAX),
                3 => pattern.insert(0, 1 << 40),
                _ => (),
            }
            pattern
        })
        .collect()
}

/// Compares counts with a scan, for more counts than patterns and for fewer.
fn counts_are_right(symbols: &[u64], width: u16) {
    let text = TextIndex::from_slice(Global, symbols, width).ok().unwrap();
    for count in [0, 1, 2, 15, 16, 17, 31, 32, 33] {
        let patterns = patterns_of(symbols, count, 7 + count as u64);
        let slices: Plain<&[u64]> = patterns.iter().map(|pattern| &pattern[..]).collect();
        let wanted: Plain<usize> = patterns.iter().map(|pattern| occurrences(symbols, pattern)).collect();
        for room in [count, count + 3, count / 2] {
            let mut counts = vec![usize::MAX; room];
            text.count_in_groups(&slices, &mut counts, &mut Tally::new());
            let many = room.min(count);
            assert_eq!(counts[..many], wanted[..many], "{count} patterns in {} symbols", symbols.len());
            assert!(counts[many..].iter().all(|it| *it == usize::MAX));
            counts.fill(usize::MAX);
            text.count_each(&slices, &mut counts);
            assert_eq!(counts[..many], wanted[..many]);
            assert!(counts[many..].iter().all(|it| *it == usize::MAX));
        }
    }
}

#[test]
fn counts_in_groups_are_those_of_a_scan() {
    for len in [0, 1, 2, 5, 20, 63, 64, 65, 300] {
        let symbols: Plain<u64> = xorshift(len, 3).iter().map(|it| it % 4).collect();
        counts_are_right(&symbols, 2);
        let skewed: Plain<u64> = xorshift(len, 5).iter().map(|it| it.trailing_ones() as u64 * 3).collect();
        counts_are_right(&skewed, 8);
        counts_are_right(&vec![1; len], 1);
    }
}

/// Four symbols in turn have depth 2 each, so a symbol of a pattern takes at most two nodes, four ranks and two
/// numbers.
#[test]
fn counts_in_groups_read_within_their_bounds() {
    let symbols: Plain<u64> = (0..400).map(|it| it % 4).collect();
    let text = TextIndex::from_slice(Global, &symbols, 2).ok().unwrap();
    for count in [1, 16, 17, 40] {
        let patterns = patterns_of(&symbols, count, 99);
        let slices: Plain<&[u64]> = patterns.iter().map(|pattern| &pattern[..]).collect();
        let all: u64 = patterns.iter().map(|pattern| pattern.len() as u64).sum();
        let mut tally = Tally::new();
        text.count_in_groups(&slices, &mut vec![0; count], &mut tally);
        assert!(tally.items() <= 2 * all && tally.nodes() <= 2 * all && tally.data_words() <= 4 * all);
        // A pattern that ended, or has no row left, reads nothing more.
        let absent: &[u64] = &[3, 3, 3, 3, 3, 3, 3, 2, 2];
        let mut tally = Tally::new();
        text.count_in_groups(&[absent, &[1]], &mut [0; 2], &mut tally);
        assert!(tally.items() <= 6 && tally.nodes() <= 6);
    }
}
