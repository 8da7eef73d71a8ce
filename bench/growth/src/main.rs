//! Times of queries and builds by size, of this crate and of vers-vecs: `growth [PASSES]`. Both answer the same questions
//! in turns of one process, so that other work on the machine slows both alike. Prints the tables of
//! docs/PERFORMANCE.md: in each cell the least processor time of all passes, in nanoseconds, here and in vers-vecs, and
//! their ratio.

#[path = "../../original/src/clock.rs"]
mod clock;
#[allow(dead_code)]
#[path = "../../original/src/workload.rs"]
mod workload;

use clock::processor_time;
use original::{LevelTree as _, Tree as _};
use std::time::Duration;
use vers_vecs::{LevelTree as _, Tree as _};
use workload::{folded, limbs, members_uniform, parentheses, symbols, values, Random, NONE};

/// The number of questions of a query.
const QUESTIONS: usize = 200_000;
/// The number of passes of a build and of a walk.
const FEW: usize = 3;
/// The greatest number of items of a walk.
const WALKED: usize = 1_000_000;

/// The rows of a structure's table: a name, and a cell for each size.
struct Table {
    passes: usize,
    rows: Vec<(&'static str, Vec<String>)>,
}

impl Table {
    /// Measures a structure at each size, and prints its table.
    fn print(title: &str, sizes: &[String], passes: usize, mut measure: impl FnMut(&mut Table, usize)) {
        let mut table = Table { passes, rows: Vec::new() };
        for number in 0..sizes.len() {
            measure(&mut table, number);
        }
        println!("|{title}|{}|\n|---|{}", sizes.join("|"), "---:|".repeat(sizes.len()));
        for (name, cells) in &table.rows {
            println!("|{name}|{}|", cells.join("|"));
        }
        println!();
    }

    /// Adds the cell of the least times of two pieces of work in turns, both with the same result.
    fn add(
        &mut self,
        name: &'static str,
        passes: usize,
        count: usize,
        ours: impl Fn() -> u64,
        theirs: impl Fn() -> u64,
    ) {
        let mut least = [Duration::MAX; 2];
        for _ in 0..passes {
            let start = processor_time();
            let our_sum = ours();
            let middle = processor_time();
            let their_sum = theirs();
            let end = processor_time();
            assert_eq!(our_sum, their_sum, "{name}");
            least = [least[0].min(middle - start), least[1].min(end - middle)];
        }
        self.put(name, count, least);
    }

    /// Adds a cell of two times of some items.
    fn put(&mut self, name: &'static str, count: usize, least: [Duration; 2]) {
        let [here, there] = least.map(|it| short(it.as_secs_f64() * 1e9 / count as f64));
        let ratio = least[0].as_secs_f64() / least[1].as_secs_f64();
        let cell = format!("{here}, {there} ({ratio:.2})");
        match self.rows.iter_mut().find(|row| row.0 == name) {
            Some((_, cells)) => cells.push(cell),
            None => self.rows.push((name, vec![cell])),
        }
    }

    /// Adds the cell of a build. Its input is made before the time, and its result is dropped after it.
    fn build<A, B, T, U>(
        &mut self,
        name: &'static str,
        count: usize,
        ours: (impl Fn() -> A, impl Fn(A) -> T),
        theirs: (impl Fn() -> B, impl Fn(B) -> U),
    ) {
        let mut least = [Duration::MAX; 2];
        for _ in 0..FEW {
            least = [least[0].min(build_time(&ours)), least[1].min(build_time(&theirs))];
        }
        self.put(name, count, least);
    }

    /// Adds the cell of a walk over the first items.
    fn walk<I, J>(&mut self, name: &'static str, count: usize, ours: impl Fn() -> I, theirs: impl Fn() -> J)
    where
        I: Iterator<Item = u64>,
        J: Iterator<Item = u64>,
    {
        let count = count.min(WALKED);
        self.add(name, FEW, count, || folded(ours().take(count)), || folded(theirs().take(count)));
    }

    /// Adds the cell of a query of each question.
    fn query<Q>(&mut self, name: &'static str, asked: &[Q], ours: impl Fn(&Q) -> u64, theirs: impl Fn(&Q) -> u64) {
        let passes = self.passes;
        self.add(name, passes, asked.len(), || folded(asked.iter().map(&ours)), || folded(asked.iter().map(&theirs)));
    }
}

/// Returns the time of a build, whose input is made before.
fn build_time<A, T>((input, build): &(impl Fn() -> A, impl Fn(A) -> T)) -> Duration {
    let input = input();
    let start = processor_time();
    let made = std::hint::black_box(build(input));
    let time = processor_time() - start;
    drop(made);
    time
}

/// Returns three significant digits of a number.
fn short(value: f64) -> String {
    let digits = if value >= 100.0 { 0 } else { 2 - value.log10().floor() as i32 };
    format!("{value:.*}", digits as usize)
}

/// Returns a number, or that of no answer.
fn answer(found: Option<usize>) -> u64 {
    found.map_or(NONE, |it| it as u64)
}

/// Returns random numbers below a bound, one for each question.
fn numbers(random: &mut Random, bound: usize) -> Vec<usize> {
    random.many_below(QUESTIONS, bound as u64).into_iter().map(|it| it as usize).collect()
}

/// Random bits, half of them ones.
fn measure_bits(table: &mut Table, len: usize) {
    let limbs = limbs(len / 64, 50);
    let (our_bits, their_bits) = (vers_vecs::BitVec::from_limbs(&limbs), original::BitVec::from_limbs(&limbs));
    table.build(
        "`from_bit_vec`, a bit",
        len,
        (|| our_bits.clone(), vers_vecs::RsVec::from_bit_vec),
        (|| their_bits.clone(), original::RsVec::from_bit_vec),
    );
    let ours = vers_vecs::RsVec::from_bit_vec(our_bits);
    let theirs = original::RsVec::from_bit_vec(their_bits);
    let mut random = Random::new(7);
    let positions = numbers(&mut random, len);
    let [ones, zeros] = [ours.rank1(len), ours.rank0(len)].map(|count| numbers(&mut random, count));
    table.query("`rank1`", &positions, |&it| ours.rank1(it) as u64, |&it| theirs.rank1(it) as u64);
    table.query("`select1`", &ones, |&it| ours.select1(it) as u64, |&it| theirs.select1(it) as u64);
    table.query("`select0`", &zeros, |&it| ours.select0(it) as u64, |&it| theirs.select0(it) as u64);
    let count = ours.rank1(len);
    table.walk("`iter1`, a position", count, || ours.iter1().map(|it| it as u64), || theirs.iter1().map(|it| it as u64));
}

/// Ascending numbers with gaps below 2^20.
fn measure_sorted(table: &mut Table, len: usize) {
    let members = members_uniform(len);
    table.build(
        "`from_slice`, an element",
        len,
        (|| &members, |it| vers_vecs::EliasFanoVec::from_slice(it)),
        (|| &members, |it| original::EliasFanoVec::from_slice(it)),
    );
    let ours = vers_vecs::EliasFanoVec::from_slice(&members);
    let theirs = original::EliasFanoVec::from_slice(&members);
    let mut random = Random::new(8);
    let positions = numbers(&mut random, len);
    let asked = random.many_below(QUESTIONS, members[len - 1] + 1);
    table.query("`get`", &positions, |&it| ours.get(it).unwrap_or(NONE), |&it| theirs.get(it).unwrap_or(NONE));
    table.query("`rank`", &asked, |&it| ours.rank(it), |&it| theirs.rank(it));
    table.query(
        "`predecessor`",
        &asked,
        |&it| ours.predecessor(it).unwrap_or(NONE),
        |&it| theirs.predecessor(it).unwrap_or(NONE),
    );
    table.walk("`iter`, an element", len, || ours.iter(), || theirs.iter());
}

/// Returns a range from each position to a random one, or the reverse, and the number of one of its elements.
fn ranges_from(random: &mut Random, asked: &[(usize, u64)], len: usize) -> Vec<[usize; 3]> {
    let mut range_from = |it: usize| {
        let other = random.below(len as u64) as usize;
        let (start, end) = (it.min(other), it.max(other) + 1);
        [start, end, random.below((end - start) as u64) as usize]
    };
    asked.iter().map(|&(it, _)| range_from(it)).collect()
}

/// Random symbols of 8 bits. A select is for an occurrence that there is, a quantile of a range of random ends.
fn measure_symbols(table: &mut Table, len: usize) {
    let items = symbols(len, 8);
    table.build(
        "`from_slice`, a symbol",
        len,
        (|| &items, |it| vers_vecs::WaveletMatrix::from_slice(it, 8)),
        (|| &items, |it| original::WaveletMatrix::from_slice(it, 8)),
    );
    let ours = vers_vecs::WaveletMatrix::from_slice(&items, 8);
    let theirs = original::WaveletMatrix::from_slice(&items, 8);
    let mut random = Random::new(9);
    let asked: Vec<(usize, u64)> = numbers(&mut random, len).into_iter().map(|it| (it, random.below(256))).collect();
    let least = (0..256).map(|symbol| ours.rank_u64(len, symbol).unwrap_or(0)).min().unwrap_or(0);
    let selected: Vec<(usize, u64)> = asked.iter().map(|&(it, symbol)| (it % least.max(1), symbol)).collect();
    let ranges = ranges_from(&mut random, &asked, len);
    let number = |found: Option<u64>| found.unwrap_or(NONE);
    table.query("`get_u64`", &asked, |&(it, _)| number(ours.get_u64(it)), |&(it, _)| number(theirs.get_u64(it)));
    table.query(
        "`rank_u64`",
        &asked,
        |&(it, symbol)| answer(ours.rank_u64(it, symbol)),
        |&(it, symbol)| answer(theirs.rank_u64(it, symbol)),
    );
    table.query(
        "`select_u64`",
        &selected,
        |&(rank, symbol)| answer(ours.select_u64(rank, symbol)),
        |&(rank, symbol)| answer(theirs.select_u64(rank, symbol)),
    );
    table.query(
        "`quantile_u64`",
        &ranges,
        |&[start, end, rank]| number(ours.quantile_u64(start..end, rank)),
        |&[start, end, rank]| number(theirs.quantile_u64(start..end, rank)),
    );
}

/// Random values, and ranges of random ends or of at most 64 items.
fn measure_minima(table: &mut Table, len: usize) {
    let items = values(len);
    table.build(
        "`from_vec`, an item",
        len,
        (|| items.clone(), vers_vecs::FastRmq::from_vec),
        (|| items.clone(), original::FastRmq::from_vec),
    );
    let ours = vers_vecs::FastRmq::from_vec(items.clone());
    let theirs = original::FastRmq::from_vec(items);
    let mut random = Random::new(10);
    let starts = numbers(&mut random, len);
    let wide: Vec<[usize; 2]> = starts.iter().map(|&it| [it, random.below(len as u64) as usize]).collect();
    let short: Vec<[usize; 2]> = starts.iter().map(|&it| [it, (it + random.below(64) as usize).min(len - 1)]).collect();
    for (name, asked) in [("`range_min`", wide), ("`range_min`, at most 64 items", short)] {
        table.query(
            name,
            &asked,
            |&[one, other]| ours.range_min(one.min(other), one.max(other)) as u64,
            |&[one, other]| theirs.range_min(one.min(other), one.max(other)) as u64,
        );
    }
}

/// A random tree, and ancestors 1 to 16 levels above.
fn measure_trees(table: &mut Table, nodes: usize) {
    let limbs = parentheses(2 * nodes);
    let mut our_bits = vers_vecs::BitVec::from_limbs(&limbs);
    our_bits.drop_last(our_bits.len() - 2 * nodes);
    let mut their_bits = original::BitVec::from_limbs(&limbs);
    their_bits.drop_last(their_bits.len() - 2 * nodes);
    table.build(
        "`from_bit_vector`, a bit",
        2 * nodes,
        (|| our_bits.clone(), <vers_vecs::BpTree>::from_bit_vector),
        (|| their_bits.clone(), <original::BpTree>::from_bit_vector),
    );
    let ours = <vers_vecs::BpTree>::from_bit_vector(our_bits);
    let theirs = <original::BpTree>::from_bit_vector(their_bits);
    let mut random = Random::new(11);
    let asked: Vec<usize> = numbers(&mut random, nodes).into_iter().map(|it| ours.node_handle(it)).collect();
    let above: Vec<(usize, u64)> = asked.iter().map(|&it| (it, random.below(16) + 1)).collect();
    table.query("`close`", &asked, |&it| answer(ours.close(it)), |&it| answer(theirs.close(it)));
    table.query("`parent`", &asked, |&it| answer(ours.parent(it)), |&it| answer(theirs.parent(it)));
    table.query(
        "`level_ancestor`",
        &above,
        |&(node, levels)| answer(ours.level_ancestor(node, levels)),
        |&(node, levels)| answer(theirs.level_ancestor(node, levels)),
    );
    table.walk(
        "`dfs_iter`, a node",
        nodes,
        || ours.dfs_iter().map(|it| it as u64),
        || theirs.dfs_iter().map(|it| it as u64),
    );
}

fn main() {
    let passes = std::env::args().nth(1).map_or(15, |it| it.parse().expect("a number of passes"));
    let bits = [16, 20, 24, 26, 28];
    let powers = [4, 5, 6, 7, 8];
    let sizes = |base: u32, exponents: &[u32]| exponents.iter().map(|it| format!("{base}^{it}")).collect::<Vec<_>>();
    Table::print("`RsVec`, bits", &sizes(2, &bits), passes, |table, it| measure_bits(table, 1 << bits[it]));
    let tables: [(&str, fn(&mut Table, usize), &[u32]); 4] = [
        ("`EliasFanoVec`, elements", measure_sorted, &powers),
        ("`WaveletMatrix`, symbols of 8 bits", measure_symbols, &powers),
        ("`FastRmq`, items", measure_minima, &powers[..4]),
        ("`BpTree`, nodes", measure_trees, &powers),
    ];
    for (title, measure, exponents) in tables {
        let count = |it: usize| 10_usize.pow(exponents[it]);
        Table::print(title, &sizes(10, exponents), passes, |table, it| measure(table, count(it)));
    }
}
