//! Compares what counted calls read with what their counter says, over lists with lengths near those of limbs, blocks and
//! superblocks.
//!
//! A read is sorted by the type of the entry and by the line that reads: the counted vectors read in a few lines of
//! `vers_tally` and `vers_bits`, and all that is read elsewhere, or handed out as a whole slice, is wrong in a counted
//! call. The counter leaves out range-minimum tables and masks, positions in bytes, and the list of levels; a low part
//! counts one and takes two words, or none where its width is 0.

use crate::proved::postings::Postings;
use crate::proved::text_index::TextIndex;
use crate::proved::vers_bits::bit_vec::BitVec;
use crate::proved::vers_rank::fast_rs_vec::RsVec;
use crate::proved::vers_rmq::rmq::binary_rmq::BinaryRmq;
use crate::proved::vers_rmq::rmq::fast_rmq::FastRmq;
use crate::proved::vers_sorted::elias_fano::EliasFanoVec;
use crate::proved::vers_sorted::sparse::SparseRSVec;
use crate::proved::vers_tally::tally::Tally;
use crate::proved::vers_trees::trees::bp::BpTree;
use crate::proved::vers_wavelet::wavelet::{
    GatheredQuery, GetQuery, QuantileQuery, RankQuery, SelectQuery, WaveletMatrix,
};
use crate::proved::word_rank::WordRank;
use crate::rattle::reads::{during, Read, Way};
use crate::rattle::{Global, Vec};
use std::collections::{BTreeMap, BTreeSet};
use std::ops::Bound;

type Plain<T> = std::vec::Vec<T>;

/// The two files of the proved sources in which entries of counted vectors are read.
#[cfg(not(mutants))]
const FILES: [&str; 2] =
    [include_str!("../proved/vers_tally/tally.rs"), include_str!("../proved/vers_bits/bit_vec.rs")];
#[cfg(mutants)]
const FILES: [&str; 2] = [
    include_str!("../../target/mutants/proved/vers_tally/tally.rs"),
    include_str!("../../target/mutants/proved/vers_bits/bit_vec.rs"),
];

/// Whether a read is in such a file, in a line with a text.
fn is_in_line(read: &Read, file: &str, of: &str, text: &str) -> bool {
    let line = of.lines().nth(read.at.line() as usize - 1).unwrap_or_default();
    read.at.file().ends_with(file) && line.contains(text)
}

#[derive(Clone, Copy, PartialEq, Eq, PartialOrd, Ord, Debug)]
enum Kind {
    Words,
    Blocks,
    Superblocks,
    Items,
    Nodes,
    LeftOut,
    Wrong,
}

/// What was read by one name of a call.
#[derive(Default)]
struct Row {
    calls: u64,
    read: u64,
    more: u64,
    less: u64,
    least: i64,
    most: i64,
    first: String,
    // Counters above what the specification allows.
    beyond: String,
    left_out: BTreeMap<&'static str, u64>,
}

/// The most that each counter may grow by, by the table of the specification, in lists of at most 16 superblocks.
fn most_of(name: &str, digits: u64, chunks: u64) -> [u64; 9] {
    let select = [8, 17, 5 + 12, 0, 1, 0, 0, 0, 0];
    let times = |n: u64, low: u64| [8 * n, 17 * n, 17 * n, low, n, 0, 0, 0, 0];
    let any = u64::MAX;
    let (of, call) = name.split_once("::").unwrap_or(name.split_once(' ').unwrap_or((name, "")));
    match (of, call.trim_end_matches("_counted")) {
        ("RsVec", it) if it.contains("_each") => [any; 9],
        ("RsVec", it) if it.starts_with("bit_set_iter") => [2 * chunks, 0, 0, 0, 2 * chunks, 0, 0, 0, any],
        ("RsVec", "get" | "is_one") => [1, 0, 0, 0, 1, 0, 0, 0, 0],
        ("RsVec", "get_bits") => [2, 0, 0, 0, 1, 0, 0, 0, 0],
        ("RsVec", "rank0" | "rank1") => [8, 1, 1, 0, 1, 0, 0, 0, 0],
        ("RsVec", "select0" | "select1") => select,
        ("RsVec", "select0_pair" | "select1_pair") => times(2, 0),
        ("RsVec", it) if it.starts_with("predecessor") || it.starts_with("successor") => [16, 18, 18, 0, 2, 0, 0, 0, 0],
        ("RsVec", it) if it.starts_with("iter ") => [1, 0, 0, 0, 2, 0, 0, 0, 0],
        ("RsVec", _) => [8, 17, 17, 0, 2, 0, 0, 0, 0],
        ("WordRank", "is_one") => [1, 0, 0, 0, 0, 0, 0, 0, 0],
        ("WordRank", _) => [1, 1, 1, 0, 0, 0, 0, 0, 0],
        ("EliasFanoVec", it) if it.contains("_each") => [any; 9],
        ("EliasFanoVec", "predecessor" | "successor" | "rank" | "has") => times(digits + 8, digits + 8),
        ("SparseRSVec", "rank0" | "rank1" | "is_set" | "get") => times(digits + 8, digits + 8),
        ("EliasFanoVec" | "SparseRSVec", _) => times(2, 2),
        ("BinaryRmq", _) => [0, 0, 0, 0, 0, 2, 0, 0, 0],
        ("FastRmq", _) => [0, 0, 0, 0, 0, 18, 0, 0, 0],
        ("BpTree", "is_balanced") => [0, 0, 0, 0, 0, 0, 0, 1, 0],
        _ => [any; 9],
    }
}

/// The counters of a call, in the order of the specification's table.
fn counters_of(tally: &Tally) -> [u64; 9] {
    [
        tally.data_words(),
        tally.block_entries(),
        tally.superblock_entries(),
        tally.low_parts(),
        tally.rank_calls(),
        tally.items(),
        tally.blocks(),
        tally.nodes(),
        tally.chunks(),
    ]
}

/// What a call read: how much of each kind, the last read that is wrong, and what the counter leaves out.
#[derive(Default)]
struct Seen {
    of: [u64; 7],
    wrong: String,
    left_out: BTreeMap<&'static str, u64>,
}

/// Returns whether each slice of all words was split into blocks of 8, of which one is read at most, and each one of all
/// block entries was loaded by lanes once.
fn are_used_whole(reads: &[Read]) -> bool {
    let count = |of, way, file: &str, size: Option<usize>| {
        let is_one = |it: &&Read| it.way == way && it.of == of && it.at.file().ends_with(file);
        reads.iter().filter(is_one).filter(|it| size.map_or(true, |size| it.count == size)).count()
    };
    let words = |way, size| count("u64", way, "vers_bits/bit_vec.rs", size);
    let entries = |way| count("u16", way, "tally.rs", None);
    words(Way::Handed, None) == words(Way::Split, Some(8)) && entries(Way::Handed) == entries(Way::Lanes)
}

/// All calls by their names.
#[derive(Default)]
struct Book {
    rows: BTreeMap<String, Row>,
    lines: BTreeMap<(&'static str, u32), Kind>,
    // How many words a low part takes, the digits of the number of elements, and the lists that are arguments.
    low: u64,
    digits: u64,
    arguments: Plain<usize>,
}

impl Book {
    fn kind(&mut self, read: &Read) -> Kind {
        if read.of == "u32" || read.of == "u8" || read.of.contains("::BlockMasks") || read.of.contains("::RsVec<") {
            return Kind::LeftOut;
        }
        let at = (read.at.file(), read.at.line());
        if let Some(kind) = self.lines.get(&at) {
            return *kind;
        }
        let tally = |text| is_in_line(read, "vers_tally/tally.rs", FILES[0], text);
        let kind = match read.of {
            "u16" if tally("self.entries") => Kind::Blocks,
            "u64" if tally("self.numbers[k]") => Kind::Items,
            "u64" if tally("self.entries[k]") => Kind::Superblocks,
            "u64" if is_in_line(read, "vers_bits/bit_vec.rs", FILES[1], "self.data") => Kind::Words,
            "u64" if is_in_line(read, "vers_bits/bit_vec.rs", FILES[1], "blocks.get(k)") => Kind::Words,
            it if tally("self.entries[k]") && it.contains("::Node") => Kind::Nodes,
            _ => Kind::Wrong,
        };
        self.lines.insert(at, kind);
        kind
    }

    /// Makes a call and compares.
    fn call<R>(&mut self, name: &str, about: impl Fn() -> String, call: impl FnOnce(&mut Tally) -> R) -> R {
        let mut tally = Tally::new();
        let (answer, reads) = during(|| call(&mut tally));
        let seen = self.seen_in(&reads);
        self.note(name, about, &tally, seen);
        answer
    }

    /// Sorts the reads of a call.
    fn seen_in(&mut self, reads: &[Read]) -> Seen {
        let mut seen = Seen::default();
        // Lists that the call makes itself are no part of what is asked.
        let made: BTreeSet<usize> = reads.iter().filter(|it| it.way == Way::Made).map(|it| it.list).collect();
        let handed: BTreeSet<_> = reads
            .iter()
            .filter(|it| it.way == Way::Handed && it.of == "u16")
            .map(|it| (it.list, it.list + 2 * it.count))
            .collect();
        for read in reads {
            if read.way == Way::Made || made.contains(&read.list) || self.arguments.contains(&read.list) {
                continue;
            }
            let kind = self.kind(read);
            match (read.way, kind) {
                (_, Kind::LeftOut) => *seen.left_out.entry(read.of.rsplit("::").next().unwrap()).or_insert(0) += 1,
                // A load of lanes from a table of the program is no read of a list.
                (Way::Lanes, _) => {
                    if read.of == "u16" && handed.iter().any(|(from, to)| (*from..*to).contains(&read.first)) {
                        seen.of[Kind::Blocks as usize] += read.count as u64;
                    }
                }
                (Way::Split, _) => {}
                (Way::Handed, Kind::Blocks | Kind::Words) => {}
                (Way::Index | Way::Array, it) if it != Kind::Wrong => seen.of[it as usize] += read.count as u64,
                _ => {
                    seen.of[Kind::Wrong as usize] += read.count as u64;
                    seen.wrong = format!("{:?} of {} {} at {}", read.way, read.count, read.of, read.at);
                }
            }
        }
        if !are_used_whole(reads) {
            seen.of[Kind::Wrong as usize] += 1;
            seen.wrong = "all entries handed out".to_string();
        }
        seen
    }

    /// Adds a call to the row of its name.
    fn note(&mut self, name: &str, about: impl Fn() -> String, tally: &Tally, seen: Seen) {
        let counted = [
            tally.data_words() + self.low * tally.low_parts(),
            tally.block_entries(),
            tally.superblock_entries(),
            tally.items(),
            tally.nodes(),
            0,
            0,
        ];
        let counters = counters_of(tally);
        let row = self.rows.entry(name.to_string()).or_default();
        row.calls += 1;
        let most = most_of(name, self.digits, tally.chunks());
        if counters.iter().zip(most).any(|(it, most)| *it > most) && row.beyond.is_empty() {
            row.beyond = format!("{}: counts {counters:?}, at most {most:?} allowed", about());
        }
        row.read += seen.of.iter().sum::<u64>();
        for (it, n) in seen.left_out {
            *row.left_out.entry(it).or_default() += n;
        }
        let differences = || seen.of.iter().zip(counted).map(|(seen, counted)| *seen as i64 - counted as i64);
        row.most = row.most.max(differences().max().unwrap());
        row.least = row.least.min(differences().min().unwrap());
        row.more += u64::from(differences().any(|it| it > 0));
        row.less += u64::from(differences().any(|it| it < 0));
        if seen.of != counted && row.first.is_empty() {
            row.first = format!("{}: read {:?}, counted {counted:?} {}", about(), seen.of, seen.wrong);
        }
    }

    /// Prints the rows, and returns the names of those that differ.
    fn faults(&self) -> Plain<String> {
        for (name, it) in &self.rows {
            let (more, less) = (format!("{} (+{})", it.more, it.most), format!("{} ({})", it.less, it.least));
            println!(
                "{name:44} calls {:7} read {:8} more {more:10} less {less:10} {:?} {} {}",
                it.calls, it.read, it.left_out, it.first, it.beyond
            );
        }
        self.rows
            .iter()
            .filter(|it| it.1.more + it.1.less > 0 || !it.1.beyond.is_empty())
            .map(|it| it.0.clone())
            .collect()
    }
}

const LENGTHS: [usize; 17] = [0, 1, 63, 64, 65, 127, 511, 512, 513, 1025, 8191, 8192, 8193, 8705, 16384, 16449, 40_000];

/// Bits of several kinds: sparse, dense, and in runs.
fn bits_of(n: usize, kind: usize) -> BitVec<Global> {
    let mut state = 0x9e37_79b9_7f4a_7c15u64;
    let bits: Plain<bool> = (0..n)
        .map(|k| {
            state ^= state << 13;
            state ^= state >> 7;
            state ^= state << 17;
            match kind {
                0 => false,
                1 => true,
                2 => state % 2 == 0,
                3 => state % 97 == 0,
                _ => k / 3000 % 2 == 0,
            }
        })
        .collect();
    BitVec::from_bools(Global, &bits).ok().unwrap()
}

/// Places around the boundaries of a list of `n`, and past its end.
fn positions(n: usize) -> Plain<usize> {
    let mut found: Plain<usize> =
        [0, 1, 62, 63, 64, 65, 255, 256, 511, 512, 513, 700, 8191, 8192, 8193, 9000, 16383, 16384]
            .into_iter()
            .chain([n / 3, n / 2, n - n / 7])
            .filter(|it| *it <= n)
            .chain([n.saturating_sub(2), n.saturating_sub(1), n, n + 1, usize::MAX])
            .collect();
    found.sort();
    found.dedup();
    found
}

/// An argument, as a report shows it.
trait Shown {
    fn shown(&self) -> String;
}

macro_rules! shown {
    ($($kind:ty),*) => {
        $(impl Shown for $kind {
            fn shown(&self) -> String {
                format!("{self:?}")
            }
        })*
    };
}

shown!(usize, u64, i64, std::ops::Range<usize>, Bound<usize>);

impl Shown for &BitVec<Global> {
    fn shown(&self) -> String {
        "a symbol".to_string()
    }
}

impl Shown for &Postings<Global> {
    fn shown(&self) -> String {
        "another".to_string()
    }
}

macro_rules! asked {
    ($book:ident, $of:literal, $it:expr, $about:expr, $($name:ident($($argument:expr),*)),* $(,)?) => {
        $($book.call(
            concat!($of, "::", stringify!($name)),
            || format!("{}, {}", $about, [$(Shown::shown(&$argument),)* String::new()].join(" ")),
            |tally| {
                let _ = $it.$name($($argument.clone(),)* tally);
            },
        );)*
    };
}

#[allow(unused_must_use)]
fn walk<I>(
    book: &mut Book,
    name: &str,
    steps: usize,
    about: String,
    iter: &mut I,
    mut take: impl FnMut(&mut I, usize, &mut Tally) -> bool,
) {
    for k in 0..steps {
        if !book.call(name, || format!("{about}, step {k}"), |tally| take(iter, k, tally)) {
            break;
        }
    }
}

/// Takes by all four calls of an iterator in turn, ten times near the ends and then along.
macro_rules! walked {
    ($book:ident, $name:expr, $about:expr, $make:expr) => {{
        let about = $about;
        let mut iter = $make;
        walk(&mut $book, &format!("{} next", $name), 700, about.clone(), &mut iter, |it, _, tally| {
            it.next_counted(tally).is_some()
        });
        walk(&mut $book, &format!("{} next_back", $name), 700, about.clone(), &mut iter, |it, _, tally| {
            it.next_back_counted(tally).is_some()
        });
        walk(&mut $book, &format!("{} nth", $name), 40, about.clone(), &mut iter, |it, k, tally| {
            it.nth_counted(k * k % 301, tally).is_some()
        });
        walk(&mut $book, &format!("{} nth_back", $name), 40, about.clone(), &mut iter, |it, k, tally| {
            it.nth_back_counted(k * k % 301, tally).is_some()
        });
    }};
}

fn ask_bits(book: &mut Book, list: &RsVec<Global>, about: &str) {
    let n = list.len();
    for position in positions(n) {
        asked!(
            book,
            "RsVec",
            list,
            about,
            get_counted(position),
            rank0_counted(position),
            rank1_counted(position),
            select0_counted(position),
            select1_counted(position),
            select0_pair_counted(position),
            select1_pair_counted(position),
            successor0_counted(position),
            successor1_counted(position),
            predecessor0_counted(position),
            predecessor1_counted(position),
            get_bits_counted(position, 0usize),
            get_bits_counted(position, 1usize),
            get_bits_counted(position, 64usize),
            get_bits_counted(position, 65usize)
        );
        if position < n {
            asked!(book, "RsVec", list, about, is_one_counted(position));
        }
    }
    ask_bits_at_once(book, list, about);
}

/// Calls that answer many queries, or go along chunks of bits.
fn ask_bits_at_once(book: &mut Book, list: &RsVec<Global>, about: &str) {
    let n = list.len();
    for bit in [false, true] {
        let mut numbers: Plain<usize> = positions(n).into_iter().chain(positions(n / 2)).collect();
        book.call(
            &format!("RsVec::select{}_each_counted", u8::from(bit)),
            || about.to_string(),
            |tally| {
                if bit {
                    list.select1_each_counted(&mut numbers, tally)
                } else {
                    list.select0_each_counted(&mut numbers, tally)
                }
            },
        );
    }
    let mut chunks = list.bit_set_iter1();
    walk(book, "RsVec bit_set_iter1 next", 900, about.to_string(), &mut chunks, |it, _, tally| {
        it.next_counted(tally).is_some()
    });
    let mut chunks = list.bit_set_iter0();
    walk(book, "RsVec bit_set_iter0 next", 900, about.to_string(), &mut chunks, |it, _, tally| {
        it.next_counted(tally).is_some()
    });
}

#[test]
fn reads_of_bits_are_counted() {
    let mut book = Book::default();
    for n in LENGTHS {
        for kind in 0..5 {
            let list = RsVec::from_bit_vec(bits_of(n, kind)).ok().unwrap();
            let about = format!("{n} bits of kind {kind}");
            ask_bits(&mut book, &list, &about);
            walked!(book, "RsVec iter", about.clone(), list.iter());
            walked!(book, "RsVec iter0", about.clone(), list.iter0());
            walked!(book, "RsVec iter1", about.clone(), list.iter1());
            walked!(book, "RsVec into_iter1", about.clone(), list.into_iter1());
        }
    }
    assert_eq!(book.faults(), [""; 0]);
}

#[test]
fn reads_of_counted_words_are_counted() {
    let mut book = Book::default();
    for n in LENGTHS {
        for kind in 0..5 {
            let list = WordRank::from_bit_vec(bits_of(n, kind)).ok().unwrap();
            let about = format!("{n} bits of kind {kind}");
            for position in positions(n) {
                asked!(book, "WordRank", list, about, rank1_counted(position));
                if position < n {
                    asked!(book, "WordRank", list, about, is_one_counted(position), get_and_rank1_counted(position));
                }
            }
        }
    }
    assert_eq!(book.faults(), [""; 0]);
}

fn elements(n: usize, step: u64, kind: usize) -> Plain<u64> {
    (0..n as u64)
        .map(|k| match kind {
            0 => k * step + k % 3,
            1 => k / 9 * step,
            _ => k * k / 7 + 1000,
        })
        .collect()
}

/// How many words a low part takes: none where the width is 0.
fn words_of_low_part(numbers: &[u64]) -> u64 {
    let clog = |it: u64| 64 - u64::from((it - 1).leading_zeros());
    let (Some(first), Some(last)) = (numbers.first(), numbers.last()) else { return 0 };
    let (n, u) = (numbers.len() as u64, last - first);
    2 * u64::from(clog(u.max(2)).max(clog(n + 2)) > clog(n.max(2)))
}

/// Numbers around each of the elements at some positions, and around these positions.
fn numbers_near(numbers: &[u64], position: usize) -> impl Iterator<Item = u64> {
    [numbers.get(position).copied().unwrap_or(u64::MAX), position as u64]
        .into_iter()
        .flat_map(|it| [it.saturating_sub(1), it, it.saturating_add(1)])
}

fn ask_elements(book: &mut Book, list: &EliasFanoVec<Global>, numbers: &[u64], about: &str) {
    for position in positions(numbers.len()) {
        asked!(
            book,
            "EliasFanoVec",
            list,
            about,
            get_counted(position),
            select_counted(position),
            delta_counted(position)
        );
        for v in numbers_near(numbers, position) {
            asked!(
                book,
                "EliasFanoVec",
                list,
                about,
                has_counted(v),
                rank_counted(v),
                predecessor_counted(v),
                successor_counted(v)
            );
        }
    }
}

/// Calls that answer many queries: at positions, and at all of them in turn.
fn ask_elements_at_once(book: &mut Book, list: &EliasFanoVec<Global>, numbers: &[u64], about: &str) {
    let n = numbers.len();
    let values: Plain<u64> =
        positions(n).into_iter().map(|it| numbers.get(it).copied().unwrap_or(it as u64).saturating_add(1)).collect();
    let some: Plain<Option<u64>> = values.iter().copied().map(Some).collect();
    let about = || about.to_string();
    book.call("EliasFanoVec::predecessor_each_counted", about, |tally| {
        list.predecessor_each_counted(&mut some.clone(), tally)
    });
    book.call("EliasFanoVec::successor_each_counted", about, |tally| {
        list.successor_each_counted(&mut some.clone(), tally)
    });
    book.call("EliasFanoVec::rank_each_counted", about, |tally| list.rank_each_counted(&mut values.clone(), tally));
    for positions in [positions(n), (0..n).collect()] {
        let mut some: Plain<Option<u64>> = positions.into_iter().map(|it| Some(it as u64)).collect();
        book.call("EliasFanoVec::get_each_counted", about, |tally| list.get_each_counted(&mut some, tally));
    }
}

fn ask_sparse(book: &mut Book, list: &SparseRSVec<Global>, ones: &[u64], about: &str) {
    for position in positions(ones.len()) {
        asked!(book, "SparseRSVec", list, about, select1_counted(position));
        for v in numbers_near(ones, position) {
            asked!(
                book,
                "SparseRSVec",
                list,
                about,
                rank0_counted(v),
                rank1_counted(v),
                is_set_counted(v),
                get_counted(v)
            );
        }
    }
}

#[test]
fn reads_of_sorted_lists_are_counted() {
    let mut book = Book::default();
    for n in LENGTHS {
        for (step, kind) in [(1, 0), (5, 0), (1 << 40, 0), (3, 1), (1000, 1), (0, 2)] {
            let mut numbers = elements(n, step, kind);
            numbers.sort();
            book.low = words_of_low_part(&numbers);
            book.digits = u64::from(64 - (n as u64).leading_zeros());
            let list = EliasFanoVec::from_slice(Global, &numbers).ok().unwrap();
            let about = format!("{n} elements, step {step}, kind {kind}");
            ask_elements(&mut book, &list, &numbers, &about);
            ask_elements_at_once(&mut book, &list, &numbers, &about);
            walked!(book, "EliasFanoVec iter", about.clone(), list.iter());
            walked!(book, "EliasFanoVec into_iter", about.clone(), list.into_iter());
            let mut ones = numbers;
            ones.dedup();
            let len = ones.last().map_or(n as u64, |it| it + 70);
            book.low = words_of_low_part(&ones);
            let sparse = SparseRSVec::new(Global, &ones, len).ok().unwrap();
            ask_sparse(&mut book, &sparse, &ones, &about);
            walked!(book, "SparseRSVec iter1", about, sparse.iter1());
        }
    }
    assert_eq!(book.faults(), [""; 0]);
}

/// Symbol `k` of a list, or what is asked of it, of any width.
fn word(k: usize) -> u64 {
    (k as u64).wrapping_mul(0x9e37_79b9_7f4a_7c15) >> (k % 60)
}

/// Appends the bits of a symbol.
fn append_symbol(bits: &mut BitVec<Global>, symbol: u64, width: u16) {
    for at in 0..width {
        bits.append(symbol >> (at % 64) & 1 == 1).ok().unwrap();
    }
}

fn symbols_of(n: usize, width: u16) -> WaveletMatrix<Global> {
    let mut bits = BitVec::new(Global);
    for k in 0..n {
        append_symbol(&mut bits, word(k), width);
    }
    let list = if width == 0 {
        WaveletMatrix::from_slice(Global, &vec![0; n], 0)
    } else {
        WaveletMatrix::from_bit_vec(&bits, width)
    };
    list.ok().unwrap()
}

fn ask_symbols(book: &mut Book, list: &WaveletMatrix<Global>, k: usize, position: usize, about: &str) {
    let s = word(k);
    let mut symbol = BitVec::new(Global);
    append_symbol(&mut symbol, s, list.bit_len());
    if list.bit_len() > 0 {
        book.arguments = during(|| symbol.get(0)).1.iter().map(|it| it.list).collect();
    }
    asked!(
        book,
        "WaveletMatrix",
        list,
        about,
        get_u64_counted(position),
        get_value_counted(position),
        get_sorted_counted(position),
        get_sorted_u64_counted(position),
        rank_counted(position, &symbol),
        rank_u64_counted(position, s),
        rank_offset_counted(position / 5, position, &symbol),
        rank_offset_u64_counted(position / 5, position, s),
        select_counted(k, &symbol),
        select_u64_counted(k, s),
        select_offset_counted(position / 4, k, &symbol),
        select_offset_u64_counted(position / 4, k, s),
        get_gathered_u64_counted(position),
        gathered_u64_counted(position, s)
    );
    ask_range(book, list, (position / 3)..position, k, &symbol, about);
    let one = position..position.saturating_add(1);
    asked!(book, "WaveletMatrix", list, about, rank_range_u64_counted(one, s));
    book.arguments.clear();
}

fn ask_range(
    book: &mut Book,
    list: &WaveletMatrix<Global>,
    range: std::ops::Range<usize>,
    k: usize,
    symbol: &BitVec<Global>,
    about: &str,
) {
    let s = word(k);
    asked!(
        book,
        "WaveletMatrix",
        list,
        about,
        rank_range_counted(range, symbol),
        rank_range_u64_counted(range, s),
        quantile_counted(range, k),
        quantile_u64_counted(range, k),
        range_min_counted(range),
        range_max_counted(range),
        range_median_counted(range),
        range_min_u64_counted(range),
        range_max_u64_counted(range),
        range_median_u64_counted(range),
        predecessor_counted(range, symbol),
        successor_counted(range, symbol),
        predecessor_u64_counted(range, s),
        successor_u64_counted(range, s),
        gathered_range_u64_counted(range, s)
    );
}

/// Calls that answer many queries.
fn ask_symbols_at_once(book: &mut Book, list: &WaveletMatrix<Global>, about: &str) {
    let about = || about.to_string();
    let positions = positions(list.len());
    let at = || positions.iter().copied().enumerate();
    let mut gets: Plain<_> = at().map(|it| GetQuery::new(it.1)).collect();
    book.call("WaveletMatrix::get_u64_each_counted", about, |tally| list.get_u64_each_counted(&mut gets, tally));
    let mut ranks: Plain<_> = at().map(|it| RankQuery::new(it.1, word(it.0))).collect();
    book.call("WaveletMatrix::rank_u64_each_counted", about, |tally| list.rank_u64_each_counted(&mut ranks, tally));
    let mut selects: Plain<_> = at().map(|it| SelectQuery::new(it.0, word(it.0))).collect();
    book.call("WaveletMatrix::select_u64_each_counted", about, |tally| {
        list.select_u64_each_counted(&mut selects, tally)
    });
    let mut quantiles: Plain<_> = at().map(|it| QuantileQuery::new(it.1 / 3, it.1, it.0)).collect();
    book.call("WaveletMatrix::quantile_u64_each_counted", about, |tally| {
        list.quantile_u64_each_counted(&mut quantiles, tally)
    });
    let mut gathered: Plain<_> = at().map(|it| GatheredQuery::new(it.1, word(it.0))).collect();
    book.call("WaveletMatrix::gathered_u64_each_counted", about, |tally| {
        list.gathered_u64_each_counted(&mut gathered, tally)
    });
}

#[test]
fn reads_of_symbols_are_counted() {
    let mut book = Book::default();
    for n in [0, 1, 63, 64, 65, 512, 513, 8192, 8193, 9000] {
        for width in [0u16, 1, 3, 8, 64, 65] {
            let about = format!("{n} symbols of {width} bits");
            let list = symbols_of(n, width);
            for (k, position) in positions(n).into_iter().enumerate() {
                ask_symbols(&mut book, &list, k, position, &about);
            }
            ask_symbols_at_once(&mut book, &list, &about);
            if n > 600 && width > 8 {
                continue;
            }
            walked!(book, "WaveletMatrix iter", about.clone(), list.iter());
            walked!(book, "WaveletMatrix iter_sorted", about.clone(), list.iter_sorted());
            if width <= 64 {
                walked!(book, "WaveletMatrix iter_u64", about.clone(), list.iter_u64().unwrap());
                walked!(book, "WaveletMatrix iter_sorted_u64", about.clone(), list.iter_sorted_u64().unwrap());
            }
        }
    }
    assert_eq!(book.faults(), [""; 0]);
}

/// Asks for minima from each of some positions to each later one.
fn ask_minima(book: &mut Book, items: &[u64], about: &str) {
    let binary = BinaryRmq::from_vec(Vec::from_slice(Global, items).ok().unwrap()).ok().unwrap();
    let fast = FastRmq::from_vec(Vec::from_slice(Global, items).ok().unwrap()).ok().unwrap();
    let positions: Plain<usize> = positions(items.len()).into_iter().filter(|it| *it < items.len()).collect();
    for i in positions.iter().copied() {
        for j in positions.iter().copied().filter(|it| i <= *it) {
            asked!(
                book,
                "BinaryRmq",
                binary,
                about,
                range_min_counted(i, j),
                range_min_item_counted(i, j),
                range_min_with_range_counted(Bound::Included(i), Bound::Included(j))
            );
            asked!(
                book,
                "FastRmq",
                fast,
                about,
                range_min_counted(i, j),
                range_min_with_range_counted(Bound::Included(i), Bound::Included(j))
            );
        }
        asked!(book, "BinaryRmq", binary, about, item_counted(i));
    }
}

fn documents_of(documents: &[u64], items: &[u64]) -> Postings<Global> {
    let costs = Vec::from_slice(Global, &items[..documents.len()]).ok().unwrap();
    Postings::from_sorted(documents, costs).ok().unwrap()
}

/// Asks for documents from each of some positions to each later one, and for those of two lists with low parts of as many
/// bits.
fn ask_documents(book: &mut Book, items: &[u64], about: &str) {
    let n = items.len();
    let (documents, others) = (elements(n, 7, 0), elements(n / 2 + 1, 13, 0));
    let (list, other) = (documents_of(&documents, items), documents_of(&others, items));
    book.low = words_of_low_part(&documents);
    for i in positions(n).into_iter().filter(|it| *it < n) {
        for j in positions(n).into_iter().filter(|it| i <= *it && *it < n) {
            let (from, to) = (7 * i as u64, 7 * j as u64 + 1);
            asked!(
                book,
                "Postings",
                list,
                about,
                cheapest_counted(from, to),
                contains_counted(from),
                rank_counted(from),
                next_at_least_counted(to)
            );
        }
    }
    if book.low == words_of_low_part(&others) {
        asked!(book, "Postings", list, about, intersect_counted(&other));
        asked!(book, "Postings", other, about, intersect_counted(&list));
    }
}

#[test]
fn reads_of_range_minima_and_documents_are_counted() {
    let mut book = Book::default();
    for n in [1usize, 2, 15, 16, 17, 63, 64, 65, 127, 128, 129, 511, 512, 513, 8191, 8192, 8193] {
        for kind in 0..3 {
            let items: Plain<u64> =
                (0..n as u64).map(|k| [k, n as u64 - k, k.wrapping_mul(0x9e37_79b9_7f4a_7c15) >> 50][kind]).collect();
            let about = format!("{n} items of kind {kind}");
            ask_minima(&mut book, &items, &about);
            ask_documents(&mut book, &items, &about);
        }
    }
    assert_eq!(book.faults(), [""; 0]);
}

/// A number of a text's samples is a low part of at least one bit, so it takes two words.
fn ask_text(book: &mut Book, text: &TextIndex<Global>, symbols: &[u64], about: &str) {
    let n = symbols.len();
    let absent = [symbols.first().map_or(0, |it| it ^ 1); 3];
    let patterns = positions(n)
        .into_iter()
        .filter(|from| *from <= n)
        .flat_map(|from| [0, 1, 2, 5].map(|len| &symbols[from..n.min(from + len)]));
    for pattern in patterns.chain([&absent[..], &[u64::MAX]]) {
        let about = || format!("{about}, the pattern {pattern:?}");
        book.call("TextIndex::count_counted", about, |tally| text.count_counted(pattern, tally));
        book.call("TextIndex::contains_counted", about, |tally| text.contains_counted(pattern, tally));
        for limit in [0, 1, 3] {
            let _ = book.call("TextIndex::first_places_counted", about, |tally| {
                text.first_places_counted(pattern, limit, tally)
            });
        }
        let mut positions = book.call("TextIndex::places_counted", about, |tally| text.places_counted(pattern, tally));
        walk(book, "TextIndex places next", 3, about(), &mut positions, |it, _, tally| {
            it.next_counted(tally).is_some()
        });
        walk(book, "TextIndex places nth_back", 2, about(), &mut positions, |it, k, tally| {
            it.nth_back_counted(k, tally).is_some()
        });
    }
    for start in positions(n) {
        for end in [0, 1, 40, n].map(|it| start.saturating_add(it).min(n + 1)) {
            let about = || format!("{about}, from {start} to {end}");
            let _ = book.call("TextIndex::extract_counted", about, |tally| text.extract_counted(start..end, tally));
        }
    }
}

#[test]
fn reads_of_texts_are_counted() {
    let mut book = Book { low: 2, ..Book::default() };
    for n in [0usize, 1, 2, 33, 512, 513, 1025] {
        for width in [1u16, 5, 16] {
            let mixed = |k: u64| (k.wrapping_mul(0x9e37_79b9_7f4a_7c15) >> 40) % (1 << width);
            for (kind, symbol) in [&mixed as &dyn Fn(u64) -> u64, &|k| k % 2].into_iter().enumerate() {
                let symbols: Plain<u64> = (0..n as u64).map(symbol).collect();
                for step in [1, 7] {
                    let text = TextIndex::with_step(Global, &symbols, width, step).ok().unwrap();
                    ask_text(
                        &mut book,
                        &text,
                        &symbols,
                        &format!("{n} symbols of {width} bits, of kind {kind}, step {step}"),
                    );
                }
            }
        }
    }
    assert_eq!(book.faults(), [""; 0]);
}

/// Balanced parentheses of some shapes, or any bits.
fn shape(n: usize, kind: usize) -> BitVec<Global> {
    let mut depth = 0;
    let mut state = 7u64;
    let bits: Plain<bool> = (0..n)
        .map(|k| {
            state = state.wrapping_mul(6364136223846793005).wrapping_add(1442695040888963407);
            let left = n - k;
            let opens = match kind {
                0 => k < n / 2,
                1 => k % 2 == 0,
                2 => depth < left && (depth == 0 || state >> 33 & 1 == 1),
                _ => state >> 33 & 1 == 1,
            };
            depth = if opens { depth + 1 } else { depth.saturating_sub(1) };
            opens
        })
        .collect();
    BitVec::from_bools(Global, &bits).ok().unwrap()
}

fn ask_tree<const SIZE: usize>(mut book: &mut Book, n: usize, kind: usize) {
    let tree = BpTree::<SIZE, Global>::from_bit_vector(shape(n, kind)).ok().unwrap();
    let about = format!("{n} bits of shape {kind}, blocks of {SIZE}");
    asked!(book, "BpTree", tree, about, is_balanced_counted());
    for i in positions(n) {
        for r in [-2i64, -1, 0, 1, 2, -100, 100] {
            asked!(book, "BpTree", tree, about, fwd_search_counted(i, r), bwd_search_counted(i, r));
        }
        asked!(
            book,
            "BpTree",
            tree,
            about,
            is_open_counted(i),
            close_counted(i),
            open_counted(i),
            enclose_counted(i),
            node_handle_counted(i)
        );
        if i < n {
            asked!(book, "BpTree", tree, about, excess_counted(i));
        }
        if tree.is_balanced() {
            asked!(
                book,
                "BpTree",
                tree,
                about,
                has_node_counted(i),
                level_leftmost_counted(i as u64),
                level_rightmost_counted(i as u64)
            );
            if tree.has_node(i) {
                ask_node(book, &tree, i, &about);
            }
        }
    }
    walked!(book, "BpTree dfs_iter", about.clone(), tree.dfs_iter());
    if tree.is_balanced() {
        walked!(book, "BpTree dfs_post_iter", about, tree.dfs_post_iter());
    }
}

/// The calls that ask for a node.
fn ask_node<const SIZE: usize>(mut book: &mut Book, tree: &BpTree<SIZE, Global>, i: usize, about: &str) {
    asked!(
        book,
        "BpTree",
        tree,
        about,
        parent_counted(i),
        first_child_counted(i),
        last_child_counted(i),
        next_sibling_counted(i),
        previous_sibling_counted(i),
        is_leaf_counted(i),
        node_index_counted(i),
        depth_counted(i),
        subtree_size_counted(i),
        is_ancestor_counted(0usize, i),
        level_ancestor_counted(i, 1u64),
        level_next_counted(i),
        level_prev_counted(i)
    );
    walk(book, "BpTree children next", 100, about.to_string(), &mut tree.children(i), |it, _, tally| {
        it.next_counted(tally).is_some()
    });
    walk(book, "BpTree rev_children next", 100, about.to_string(), &mut tree.rev_children(i), |it, _, tally| {
        it.next_counted(tally).is_some()
    });
    walked!(book, "BpTree subtree_iter", about.to_string(), tree.subtree_iter(i));
    walked!(book, "BpTree subtree_post_iter", about.to_string(), tree.subtree_post_iter(i));
}

#[test]
fn reads_of_trees_are_counted() {
    let mut book = Book::default();
    for n in [0, 2, 64, 126, 512, 514, 8192, 8194] {
        for kind in 0..4 {
            ask_tree::<8>(&mut book, n, kind);
            ask_tree::<500>(&mut book, n, kind);
            ask_tree::<512>(&mut book, n, kind);
        }
    }
    assert_eq!(book.faults(), [""; 0]);
}
