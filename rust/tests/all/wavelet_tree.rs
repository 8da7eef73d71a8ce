//! Compares wavelet trees with sorted lists of symbols and positions.

use crate::plain::Random;
use std::ops::Range;
use vers_vecs::error::BuildError;
use vers_vecs::reads::Tally;
use vers_vecs::wavelet_tree::{SortedPosition, WaveletTree};

/// A list, and its symbols with their positions, sorted: a sorted position is an index there.
struct Plain {
    symbols: Vec<u64>,
    sorted: Vec<(u64, usize)>,
}

impl Plain {
    fn new(symbols: &[u64]) -> Self {
        let mut sorted: Vec<_> = symbols.iter().copied().zip(0..).collect();
        sorted.sort_unstable();
        Plain { symbols: symbols.to_vec(), sorted }
    }

    fn sorted_position(&self, position: usize, symbol: u64) -> usize {
        self.sorted.partition_point(|&it| it < (symbol, position))
    }

    fn rank(&self, position: usize, symbol: u64) -> usize {
        self.sorted_position(position, symbol) - self.sorted_position(0, symbol)
    }

    fn sorted_range(&self, range: Range<usize>, symbol: u64) -> Option<Range<usize>> {
        let found = self.sorted_position(range.start, symbol)..self.sorted_position(range.end, symbol);
        (!found.is_empty()).then_some(found)
    }
}

/// All symbols of a width once, in an order that looks random.
fn shuffled(width: u16) -> Vec<u64> {
    let mut random = Random::new(u64::from(width));
    let mut symbols: Vec<u64> = (0..1 << width).collect();
    (1..symbols.len()).rev().for_each(|position| symbols.swap(position, random.below(position as u64 + 1) as usize));
    symbols
}

/// Lists of symbols of a width: none, each once, equal ones of the least and the greatest, a few far apart, random
/// ones, and ones of which half are equal, a quarter, and so on.
fn lists(width: u16) -> Vec<Vec<u64>> {
    let mut random = Random::new(u64::from(width) + 9);
    let greatest = (1 << width) - 1;
    let halves = (0..700).map(|_| u64::from(random.number().trailing_zeros()).min(greatest)).collect();
    let few: Vec<u64> = (0..200).map(|_| [0, greatest / 3, greatest][random.below(3) as usize]).collect();
    let mut lists = vec![vec![], shuffled(width), vec![greatest], vec![0; 100], vec![greatest; 65], few, halves];
    lists.extend([63, 64, 65, 300].map(|len| random.numbers(len, greatest + 1)));
    lists
}

/// Asks for each position, and for symbols that occur and some that don't.
fn compare(tree: &WaveletTree, plain: &Plain, asked: &[u64]) {
    let len = plain.symbols.len();
    assert_eq!((tree.len(), tree.is_empty()), (len, len == 0));
    assert!(
        tree.iter().eq(plain.symbols.iter().copied()) && tree.into_iter().rev().eq(plain.symbols.iter().rev().copied())
    );
    for position in (0..len).step_by(len / 300 + 1) {
        let (symbol, mut tally) = (plain.symbols[position], Tally::new());
        let sorted = SortedPosition { symbol, position: plain.sorted_position(position, symbol) };
        assert_eq!((tree.get(position), tree.get_sorted(position)), (Some(symbol), Some(sorted)));
        assert_eq!(tree.get_sorted_counted(position, &mut tally), Some(sorted));
    }
    let ends = [0, 1, len / 2, len.saturating_sub(1), len].map(|end| end.min(len));
    for &symbol in asked {
        for end in ends {
            let rank = Some(plain.rank(end, symbol));
            assert_eq!((tree.rank(end, symbol), tree.rank_counted(end, symbol, &mut Tally::new())), (rank, rank));
            for range in ends.into_iter().filter(|start| *start <= end).map(|start| start..end) {
                let found = plain.sorted_range(range.clone(), symbol);
                assert_eq!(tree.sorted_range(range.clone(), symbol), found);
                assert_eq!(tree.sorted_range_counted(range, symbol, &mut Tally::new()), found);
            }
        }
    }
}

#[test]
fn queries_are_those_of_sorted_lists() {
    for width in [0, 1, 2, 8, 16] {
        for symbols in lists(width) {
            let (tree, plain) = (WaveletTree::from_integers(&symbols, width).unwrap(), Plain::new(&symbols));
            assert_eq!(tree.bit_len(), width);
            let mut asked: Vec<u64> = symbols.iter().copied().take(60).collect();
            asked.extend(Random::new(5).numbers(20, 1 << width));
            asked.extend([0, (1 << width) - 1, 1 << width, u64::MAX]);
            compare(&tree, &plain, &asked);
            let symbols: Vec<u16> = symbols.iter().map(|&symbol| symbol as u16).collect();
            assert!(tree == WaveletTree::from_vec(symbols, width).unwrap() && tree == tree.clone());
        }
    }
}

#[test]
fn ranks_of_all_symbols() {
    for width in [0, 1, 8, 16] {
        let symbols = shuffled(width);
        let tree = WaveletTree::from_vec(symbols.clone(), width).unwrap();
        for (position, &symbol) in symbols.iter().enumerate() {
            assert_eq!((tree.rank(position, symbol), tree.rank(position + 1, symbol)), (Some(0), Some(1)));
            assert_eq!(tree.get_sorted(position), Some(SortedPosition { symbol, position: symbol as usize }));
        }
    }
}

#[test]
fn forks_of_whole_superblocks() {
    for len in [32_766, 32_767, 32_768, 32_769] {
        let symbols: Vec<u64> = (0..len as u64).map(|position| position * position / 3 % 2).collect();
        let tree = WaveletTree::from_integers(&symbols, 1).unwrap();
        compare(&tree, &Plain::new(&symbols), &[0, 1, 2]);
    }
}

#[test]
fn numbers_of_all_types() {
    let bytes = b"abracadabra";
    let tree = WaveletTree::from_integers(bytes, 8).unwrap();
    assert_eq!(tree, WaveletTree::from_vec(bytes.to_vec(), 8).unwrap());
    assert_eq!(tree, WaveletTree::from_vec(bytes.map(u16::from).to_vec(), 8).unwrap());
    assert_eq!(tree, WaveletTree::from_vec(bytes.map(u32::from).to_vec(), 8).unwrap());
    assert_eq!(tree, WaveletTree::from_vec(bytes.map(u64::from).to_vec(), 8).unwrap());
    assert_ne!(tree, WaveletTree::from_integers(bytes, 7).unwrap());
    assert_ne!(tree, WaveletTree::from_integers(b"abracadabrb", 8).unwrap());
}

#[test]
fn symbols_that_are_refused() {
    let refused = |symbols: &[u64], width| WaveletTree::from_integers(symbols, width).unwrap_err();
    assert_eq!(refused(&[], 17), BuildError::UnsupportedWidth { bits: 17 });
    assert_eq!(refused(&[1 << 40], u16::MAX), BuildError::UnsupportedWidth { bits: u16::MAX });
    assert_eq!(refused(&[0, 7, 8, 9], 3), BuildError::SymbolTooWide { position: 2 });
    assert_eq!(refused(&[0, 1], 0), BuildError::SymbolTooWide { position: 1 });
    assert_eq!(refused(&[65_535, 65_536], 16), BuildError::SymbolTooWide { position: 1 });
    assert_eq!(refused(&[u64::MAX], 16), BuildError::SymbolTooWide { position: 0 });
    let refused = WaveletTree::from_vec(vec![3_u8, 4], 2).unwrap_err();
    assert_eq!(refused, BuildError::SymbolTooWide { position: 1 });
    assert_eq!(WaveletTree::from_vec(vec![0_u8], 64).unwrap_err(), BuildError::UnsupportedWidth { bits: 64 });
}

#[test]
#[allow(clippy::reversed_empty_ranges)]
fn positions_that_are_refused() {
    let tree = WaveletTree::from_integers(&[5_u8, 1, 7], 3).unwrap();
    let mut tally = Tally::new();
    for position in [3, 4, usize::MAX] {
        assert_eq!((tree.get(position), tree.get_sorted(position)), (None, None));
        assert_eq!(tree.get_sorted_counted(position, &mut tally), None);
    }
    for position in [4, usize::MAX] {
        assert_eq!((tree.rank(position, 1), tree.rank_counted(position, 1, &mut tally)), (None, None));
    }
    for range in [2..1, 0..4, 3..2, 4..4, 0..usize::MAX, usize::MAX..0] {
        assert_eq!(tree.sorted_range(range.clone(), 1), None);
        assert_eq!(tree.sorted_range_counted(range, 1, &mut tally), None);
    }
    assert_eq!((tally.nodes(), tally.items(), tally.data_words()), (0, 0, 0));
    assert_eq!((tree.rank(3, 1), tree.sorted_range(3..3, 1), tree.sorted_range(0..3, 1)), (Some(1), None, Some(0..1)));
}

#[test]
fn a_frequent_symbol_has_few_forks() {
    let mut symbols = vec![0_u64; 100];
    symbols.extend(1..=100);
    let tree = WaveletTree::from_integers(&symbols, 7).unwrap();
    let forks_to = |symbol: u64| {
        let mut tally = Tally::new();
        assert_eq!(tree.rank_counted(200, symbol, &mut tally), Some(if symbol == 0 { 100 } else { 1 }));
        assert_eq!(tally.items(), 2);
        tally.nodes()
    };
    assert_eq!(forks_to(0), 1);
    assert!((1..=100).all(|symbol| (7..=8).contains(&forks_to(symbol))));
}

#[test]
fn sizes() {
    let size = |symbols: &[u64], width| WaveletTree::from_integers(symbols, width).unwrap().heap_size();
    // one bit with its counts, and the numbers of lesser elements
    assert_eq!((size(&[], 0), size(&[], 8)), (18 + 16, 18 + 8 * 257));
    assert_eq!(size(&[5; 1000], 3), 18 + 8 * 9);
    // a fork over two elements, and over 64
    assert_eq!(size(&[0, 1], 1), 18 + 32 + 8 * 3);
    assert_eq!(size(&[[0; 32], [1; 32]].concat(), 1), 28 + 32 + 8 * 3);
}
