//! The series of lists of bits: with ranks and selects, walks over their ones, and plain lists.

use crate::report::{Series, Settings};
use crate::workload::{Random, folded, limbs, summed};
use vers_vecs::{BitVec, RsVec};

fn series<'a>(settings: &'a Settings, structure: &'static str, limb_count: usize, percent: u64) -> Series<'a> {
    Series { settings, structure, parameters: format!("n={} ones={percent}%", limb_count * 64) }
}

// The answers of queries that each wait for the one before.
fn chained<'a>(asked: &'a [u64], answer: impl Fn(usize) -> usize + 'a) -> impl Iterator<Item = u64> + 'a {
    asked.iter().scan(0u64, move |last, &it| {
        *last = answer((it + (*last >> 63)) as usize) as u64;
        Some(*last)
    })
}

/// The series `bits`.
pub fn run(settings: &Settings, limb_count: usize, percent: u64, query_count: usize) {
    let series = series(settings, "bits", limb_count, percent);
    let source = BitVec::from_limbs(&limbs(limb_count, percent));
    let bits = RsVec::from_bit_vec(source.clone());
    let len = bits.len();
    let (ones, zeros) = (bits.rank1(len), bits.rank0(len));
    series.build("build", len, ones as u64, || source.clone(), RsVec::from_bit_vec);
    series.size("heap_overhead_percent", (bits.heap_size() as f64 * 8.0 / len as f64 - 1.0) * 100.0);
    let mut random = Random::new(7);
    let positions = random.many_below(query_count, len as u64);
    let of_ones = random.many_below(query_count, ones as u64);
    let of_zeros = random.many_below(query_count, zeros as u64);
    series.run("rank1", query_count, || folded(positions.iter().map(|&it| bits.rank1(it as usize) as u64)));
    series.run("rank1_chained", query_count, || folded(chained(&positions, |it| bits.rank1(it))));
    series.run("select1", query_count, || folded(of_ones.iter().map(|&it| bits.select1(it as usize) as u64)));
    series.run("select1_chained", query_count, || folded(chained(&of_ones, |it| bits.select1(it))));
    series.run("select0", query_count, || folded(of_zeros.iter().map(|&it| bits.select0(it as usize) as u64)));
    series.walk("iter1", ones, || summed(bits.iter1().map(|it| it as u64)));
}

/// The series `bits` that a `WordRank` answers.
#[cfg(feature = "own")]
pub fn run_word_rank(settings: &Settings, limb_count: usize, percent: u64, query_count: usize) {
    use vers_vecs::word_rank::WordRank;
    let series = series(settings, "bits", limb_count, percent);
    let source = BitVec::from_limbs(&limbs(limb_count, percent));
    let bits = WordRank::from_bit_vec(source.clone());
    let len = bits.len();
    series.build("build", len, bits.rank1(len) as u64, || source.clone(), WordRank::from_bit_vec);
    series.size("heap_overhead_percent", (bits.heap_size() as f64 * 8.0 / len as f64 - 1.0) * 100.0);
    let positions = Random::new(7).many_below(query_count, len as u64);
    series.run("rank1", query_count, || folded(positions.iter().map(|&it| bits.rank1(it as usize) as u64)));
    series.run("rank1_chained", query_count, || folded(chained(&positions, |it| bits.rank1(it))));
}

/// The series `walks`, but for the walk by chunks, which the crate has with AVX-512 alone.
pub fn run_walks(settings: &Settings, limb_count: usize, percent: u64) {
    const STEP: usize = 10;
    let series = series(settings, "walks", limb_count, percent);
    let bits = RsVec::from_bit_vec(BitVec::from_limbs(&limbs(limb_count, percent)));
    let ones = bits.rank1(bits.len());
    series.walk("iter1", ones, || summed(bits.iter1().map(|it| it as u64)));
    series.walk("iter1_back", ones, || summed(bits.iter1().rev().map(|it| it as u64)));
    series.walk("iter1_nth", ones / STEP, || {
        let mut positions = bits.iter1();
        summed((0..ones / STEP).map(|_| positions.nth(STEP - 1).unwrap_or(0) as u64))
    });
    series.walk("sparse_equals1", ones, || u64::from(bits.sparse_equals::<false>(&bits)));
}

/// The series `list`.
pub fn run_lists(settings: &Settings, limb_count: usize, query_count: usize) {
    const WIDTH: usize = 37;
    let series = series(settings, "list", limb_count, 50);
    let limbs = limbs(limb_count, 50);
    let bits = BitVec::from_limbs(&limbs);
    let len = bits.len();
    series.run("from_limbs", len, || BitVec::from_limbs(&limbs).len() as u64);
    let positions = Random::new(7).many_below(query_count, len as u64);
    // A list of three bits is extended, so that no limb falls on a limb.
    series.walk("extend_bitvec", len, || {
        let mut list = BitVec::from_ones(3);
        list.extend_bitvec(&bits);
        list.len() as u64
    });
    series.run("get_bits", query_count, || {
        folded(positions.iter().map(|&it| bits.get_bits(it as usize, WIDTH).unwrap_or(u64::MAX)))
    });
    series.walk("count_ones", len, || bits.count_ones());
}
