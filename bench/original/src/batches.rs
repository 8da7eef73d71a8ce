//! The series `batches`. The crate answers one query at a time, so each series has single calls alone.

use crate::report::{Series, Settings};
use crate::symbols::{number_or_none, quantiles};
use crate::workload::{NONE, Random, folded, limbs, members_uniform, symbols};
use vers_vecs::{BitVec, EliasFanoVec, RsVec, WaveletMatrix};

struct Rank {
    end: usize,
    symbol: u64,
}

fn run_symbols(settings: &Settings, n: usize, query_count: usize) {
    const WIDTH: u16 = 32;
    let series = Series { settings, structure: "batches", parameters: format!("symbols n={n} width={WIDTH}") };
    let list = symbols(n, WIDTH);
    let matrix = WaveletMatrix::from_slice(&list, WIDTH);
    let mut random = Random::new(9);
    let positions = random.many_below(query_count, n as u64);
    let symbol = |random: &mut Random| list[random.below(n as u64) as usize];
    let ranks: Vec<Rank> = (0..query_count)
        .map(|_| Rank { end: random.below(n as u64) as usize, symbol: symbol(&mut random) })
        .collect();
    let selected: Vec<u64> = (0..query_count).map(|_| symbol(&mut random)).collect();
    let quantiles = quantiles(&mut random, query_count, n as u64);
    series.run("get_u64", query_count, || {
        folded(positions.iter().map(|&position| matrix.get_u64(position as usize).unwrap_or(NONE)))
    });
    series.run("rank_u64", query_count, || {
        folded(ranks.iter().map(|it| number_or_none(matrix.rank_u64(it.end, it.symbol))))
    });
    series.run("select_u64", query_count, || {
        folded(selected.iter().map(|&symbol| number_or_none(matrix.select_u64(0, symbol))))
    });
    series.run("quantile_u64", query_count, || {
        folded(quantiles.iter().map(|it| matrix.quantile_u64(it.range.clone(), it.number).unwrap_or(NONE)))
    });
}

fn run_bits(settings: &Settings, limb_count: usize, query_count: usize) {
    const PERCENT: u64 = 50;
    let parameters = format!("n={} ones={PERCENT}%", limb_count * 64);
    let series = Series { settings, structure: "batches", parameters };
    let bits = RsVec::from_bit_vec(BitVec::from_limbs(&limbs(limb_count, PERCENT)));
    let (ones, zeros) = (bits.rank1(bits.len()), bits.rank0(bits.len()));
    let mut random = Random::new(7);
    let of_ones = random.many_below(query_count, ones as u64);
    let of_zeros = random.many_below(query_count, zeros as u64);
    series.run("select1", query_count, || folded(of_ones.iter().map(|&it| bits.select1(it as usize) as u64)));
    series.run("select0", query_count, || folded(of_zeros.iter().map(|&it| bits.select0(it as usize) as u64)));
}

fn run_members(settings: &Settings, n: usize, query_count: usize) {
    let series = Series { settings, structure: "batches", parameters: format!("members n={n}") };
    let members = members_uniform(n);
    let list = EliasFanoVec::from_slice(&members);
    let mut random = Random::new(8);
    let positions = random.many_below(query_count, n as u64);
    let numbers = random.many_below(query_count, members.last().map_or(1, |last| last + 1));
    series.run("get", query_count, || folded(positions.iter().map(|&it| list.get(it as usize).unwrap_or(NONE))));
    series.run("rank", query_count, || folded(numbers.iter().map(|&it| list.rank(it))));
    series.run("predecessor", query_count, || {
        folded(numbers.iter().map(|&it| list.predecessor(it).unwrap_or(NONE)))
    });
    series.run("successor", query_count, || {
        folded(numbers.iter().map(|&it| list.successor(it).unwrap_or(NONE)))
    });
}

/// The series `batches`: over symbols, bits, and members of an ascending list.
pub fn run(settings: &Settings) {
    let query_count = settings.scaled(1_000_000);
    run_symbols(settings, settings.scaled(10_000_000), settings.scaled(131_072));
    run_bits(settings, settings.scaled(1_048_576), query_count);
    run_members(settings, settings.scaled(10_000_000), query_count);
}
