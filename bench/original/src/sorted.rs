//! The series of ascending lists and of sparse lists of bits.

use crate::report::{Series, Settings};
use crate::workload::{Clustered, NONE, Random, folded, limbs, members_clustered, members_uniform, summed};
use vers_vecs::{BitVec, EliasFanoVec, SparseRSVec};

/// Which values are asked for: `count` of them, `span` values from `first` on.
struct Asked {
    first: u64,
    span: u64,
    count: usize,
}

fn run_list(settings: &Settings, name: &str, numbers: &[u64], asked: Asked) {
    let len = numbers.len();
    let series = Series { settings, structure: "sorted", parameters: format!("{name} n={len}") };
    series.build("build", len, len as u64, || numbers, EliasFanoVec::from_slice);
    let list = EliasFanoVec::from_slice(numbers);
    series.size("heap_bits_per_item", list.heap_size() as f64 * 8.0 / len as f64);
    let mut random = Random::new(8);
    let positions = random.many_below(asked.count, len as u64);
    let values = random.many_below(asked.count, asked.span);
    let values: Vec<u64> = values.iter().map(|it| asked.first + it).collect();
    series.run("get", asked.count, || folded(positions.iter().map(|&it| list.get(it as usize).unwrap_or(NONE))));
    series.run("delta", asked.count, || folded(positions.iter().map(|&it| list.delta(it as usize).unwrap_or(NONE))));
    series.run("rank", asked.count, || folded(values.iter().map(|&it| list.rank(it))));
    series.run("predecessor", asked.count, || folded(values.iter().map(|&it| list.predecessor(it).unwrap_or(NONE))));
    series.run("successor", asked.count, || folded(values.iter().map(|&it| list.successor(it).unwrap_or(NONE))));
    series.walk("iter", len, || summed(list.iter()));
    series.walk("iter_back", len, || summed(list.iter().rev()));
}

/// The series `sorted`: lists of `len` members, far apart, with many equal ones, and with a dense cluster. The first
/// has `query_count` queries, the others `few`.
pub fn run(settings: &Settings, len: usize, query_count: usize, few: usize) {
    let members = members_uniform(len);
    let span = members.last().map_or(1, |last| last + 1);
    run_list(settings, "uniform", &members, Asked { first: 0, span, count: query_count });
    if settings.size.is_some() {
        return;
    }
    let Clustered { members, first } = members_clustered(len, true);
    run_list(settings, "equal", &members, Asked { first: first - 1, span: 3, count: few });
    let Clustered { members, first } = members_clustered(len, false);
    run_list(settings, "cluster", &members, Asked { first, span: len as u64 * 2 / 10, count: few });
}

/// The series `sparse`.
pub fn run_sparse(settings: &Settings, limb_count: usize, percent: u64, query_count: usize) {
    let parameters = format!("n={} ones={percent}%", limb_count * 64);
    let series = Series { settings, structure: "sparse", parameters };
    let bits = BitVec::from_limbs(&limbs(limb_count, percent));
    let ones = bits.count_ones();
    series.build("build", bits.len(), ones, || &bits, SparseRSVec::from_bitvec);
    series.build("build_inverted", bits.len(), bits.count_zeros(), || &bits, SparseRSVec::from_bitvec_inverted);
    let list = SparseRSVec::from_bitvec(&bits);
    series.size("heap_bits_per_item", list.heap_size() as f64 * 8.0 / ones as f64);
    let mut random = Random::new(7);
    let positions = random.many_below(query_count, list.len());
    let numbers = random.many_below(query_count, ones);
    series.run("get", query_count, || folded(positions.iter().map(|&it| list.get(it).unwrap_or(NONE))));
    series.run("rank1", query_count, || folded(positions.iter().map(|&it| list.rank1(it))));
    series.run("select1", query_count, || folded(numbers.iter().map(|&it| list.select1(it as usize))));
    series.walk("iter1", ones as usize, || summed(list.iter1()));
}
