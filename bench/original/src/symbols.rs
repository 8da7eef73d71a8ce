//! The series of wavelet matrices.

use crate::report::{Series, Settings};
use crate::workload::{NONE, Random, folded, summed, symbols};
use std::ops::Range;
use vers_vecs::WaveletMatrix;

/// A range of positions, and a number of one of its members by size.
pub struct Quantile {
    pub range: Range<usize>,
    pub number: usize,
}

pub fn quantiles(random: &mut Random, count: usize, n: u64) -> Vec<Quantile> {
    let mut quantile = || {
        let from = random.below(n);
        let long = random.below(n - from) + 1;
        Quantile { range: from as usize..(from + long) as usize, number: random.below(long) as usize }
    };
    (0..count).map(|_| quantile()).collect()
}

pub fn number_or_none(answer: Option<usize>) -> u64 {
    answer.map_or(NONE, |it| it as u64)
}

/// Places of a list, and symbols of it.
fn positions_and_symbols(random: &mut Random, count: usize, list: &[u64]) -> (Vec<u64>, Vec<u64>) {
    let positions = random.many_below(count, list.len() as u64);
    let others = random.many_below(count, list.len() as u64);
    (positions, others.iter().map(|&it| list[it as usize]).collect())
}

/// The series `wavelet`: `n` symbols of a width, and `query_count` queries of each kind.
pub fn run(settings: &Settings, n: usize, width: u16, query_count: usize) {
    let series = Series { settings, structure: "wavelet", parameters: format!("n={n} width={width}") };
    let list = symbols(n, width);
    series.build("build", n, n as u64, || list.as_slice(), |it| WaveletMatrix::from_slice(it, width));
    if width == 8 {
        series.build("build_pc", n, n as u64, || list.as_slice(), |it| WaveletMatrix::from_slice_pc(it, width));
    }
    let matrix = WaveletMatrix::from_slice(&list, width);
    let mut random = Random::new(9);
    let (positions, symbols) = positions_and_symbols(&mut random, query_count, &list);
    // Of 8 bits, each symbol occurs some n / 256 times.
    let most = if width == 8 { n as u64 / 256 * 3 / 4 } else { 1 };
    let ranks = random.many_below(query_count, most);
    let quantiles = quantiles(&mut random, query_count, n as u64);
    series.size("heap_bits_per_item", matrix.heap_size() as f64 * 8.0 / n as f64);
    series.run("get_u64", query_count, || {
        folded(positions.iter().map(|&position| matrix.get_u64(position as usize).unwrap_or(NONE)))
    });
    series.run("rank_u64", query_count, || {
        let asked = positions.iter().zip(&symbols);
        folded(asked.map(|(&position, &symbol)| number_or_none(matrix.rank_u64(position as usize, symbol))))
    });
    series.run("select_u64", query_count, || {
        let asked = ranks.iter().zip(&symbols);
        folded(asked.map(|(&rank, &symbol)| number_or_none(matrix.select_u64(rank as usize, symbol))))
    });
    series.run("quantile_u64", query_count, || {
        folded(quantiles.iter().map(|it| matrix.quantile_u64(it.range.clone(), it.number).unwrap_or(NONE)))
    });
    let in_ranges = || quantiles.iter().map(|it| it.range.clone()).zip(&symbols);
    series.run("predecessor_u64", query_count, || {
        folded(in_ranges().map(|(range, &symbol)| matrix.predecessor_u64(range, symbol).unwrap_or(NONE)))
    });
    series.run("successor_u64", query_count, || {
        folded(in_ranges().map(|(range, &symbol)| matrix.successor_u64(range, symbol).unwrap_or(NONE)))
    });
    series.walk("iter_u64", n, || summed(matrix.iter_u64().into_iter().flatten()));
    series.walk("iter_sorted_u64", n, || summed(matrix.iter_sorted_u64().into_iter().flatten()));
}

/// The series `wavelet` that a `WaveletTree` answers.
#[cfg(feature = "own")]
pub fn run_wavelet_tree(settings: &Settings, n: usize, width: u16, query_count: usize) {
    use vers_vecs::wavelet_tree::WaveletTree;
    let series = Series { settings, structure: "wavelet", parameters: format!("n={n} width={width}") };
    let list = symbols(n, width);
    series.build("build", n, n as u64, || list.as_slice(), |it| WaveletTree::from_integers(it, width));
    let tree = WaveletTree::from_integers(&list, width).expect("the symbols have this width");
    series.size("heap_bits_per_item", tree.heap_size() as f64 * 8.0 / n as f64);
    let (positions, symbols) = positions_and_symbols(&mut Random::new(9), query_count, &list);
    series.run("get_u64", query_count, || {
        folded(positions.iter().map(|&position| tree.get(position as usize).unwrap_or(NONE)))
    });
    series.run("rank_u64", query_count, || {
        let asked = positions.iter().zip(&symbols);
        folded(asked.map(|(&position, &symbol)| number_or_none(tree.rank(position as usize, symbol))))
    });
}
