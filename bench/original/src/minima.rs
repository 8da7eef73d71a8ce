//! The series of range minima.

use crate::report::{Series, Settings};
use crate::workload::{Random, folded, values};
use std::ops::RangeInclusive;
use vers_vecs::{BinaryRmq, FastRmq};

/// The ranges that are asked for: of any length, and of at most 64 items.
struct Ranges {
    wide: Vec<RangeInclusive<usize>>,
    short: Vec<RangeInclusive<usize>>,
}

fn ranges(n: u64, count: usize) -> Ranges {
    let mut random = Random::new(10);
    let wide = (0..count).map(|_| {
        let (one, other) = (random.below(n) as usize, random.below(n) as usize);
        one.min(other)..=one.max(other)
    });
    let wide = wide.collect();
    let short = (0..count).map(|_| {
        let first = random.below(n);
        first as usize..=(first + random.below(64)).min(n - 1) as usize
    });
    Ranges { wide, short: short.collect() }
}

trait RangeMinima: Sized {
    const NAME: &'static str;
    fn made(items: Vec<u64>) -> Self;
    fn first_least(&self, range: &RangeInclusive<usize>) -> usize;
    fn bytes(&self) -> usize;
}

macro_rules! range_minima {
    ($type:ty, $name:literal) => {
        impl RangeMinima for $type {
            const NAME: &'static str = $name;

            fn made(items: Vec<u64>) -> Self {
                <$type>::from_vec(items)
            }

            #[inline(always)]
            fn first_least(&self, range: &RangeInclusive<usize>) -> usize {
                self.range_min(*range.start(), *range.end())
            }

            fn bytes(&self) -> usize {
                self.heap_size()
            }
        }
    };
}

range_minima!(FastRmq, "rmq_fast");
range_minima!(BinaryRmq, "rmq_binary");

fn run_type<M: RangeMinima>(settings: &Settings, items: &[u64], ranges: &Ranges) {
    let n = items.len();
    let series = Series { settings, structure: M::NAME, parameters: format!("n={n}") };
    series.build("build", n, n as u64, || items.to_vec(), M::made);
    let minima = M::made(items.to_vec());
    series.size("heap_bits_per_item", minima.bytes() as f64 * 8.0 / n as f64);
    for (operation, asked) in [("range_min", &ranges.wide), ("range_min_short", &ranges.short)] {
        series.run(operation, asked.len(), || folded(asked.iter().map(|it| minima.first_least(it) as u64)));
    }
}

/// The series `rmq`: `n` items, and `query_count` ranges of each kind.
pub fn run(settings: &Settings, n: usize, query_count: usize) {
    let items = values(n);
    let ranges = ranges(n as u64, query_count);
    run_type::<FastRmq>(settings, &items, &ranges);
    run_type::<BinaryRmq>(settings, &items, &ranges);
}
