//! Sizes and times of an inverted index of a folder's files, beside those of sorted arrays with galloping, of roaring
//! bitmaps and of `grep`: `inverted FOLDER [PASSES]`. Words are the longest runs of ASCII letters, in lower case. A
//! table has the sizes, another the microseconds of a query for the documents that have all of its words. Cells are a
//! value with its ratio to that of sorted arrays. All answers are compared. In each pass all ways make all queries, and
//! the least time counts.

mod corpus;
mod grep;
#[path = "../../original/src/clock.rs"]
mod clock;
mod roaring;

use corpus::Corpus;
use roaring::Bitmap;
use std::hint::black_box;
use std::ops::RangeInclusive;
use vers_vecs::inverted::InvertedIndex;

/// The numbers of words of a query.
const SIZES: [usize; 3] = [2, 3, 5];

/// The number of queries of each kind and size.
const QUERIES: usize = 500;

/// The numbers of documents that a word of a random query has.
const COUNTS: RangeInclusive<usize> = 10..=3000;

/// The queries of `grep`.
const EXAMPLES: [&[&str]; 3] = [
    &["memory", "leak"],
    &["sorted", "random", "search"],
    &["buffer", "overflow", "remote", "attackers", "crash"],
];

/// The generator splitmix64.
struct Random(u64);

impl Random {
    fn below(&mut self, bound: usize) -> usize {
        self.0 = self.0.wrapping_add(0x9E37_79B9_7F4A_7C15);
        let z = (self.0 ^ (self.0 >> 30)).wrapping_mul(0xBF58_476D_1CE4_E5B9);
        let z = (z ^ (z >> 27)).wrapping_mul(0x94D0_49BB_1331_11EB);
        ((z ^ (z >> 31)) % bound as u64) as usize
    }

    /// Returns `count` distinct items.
    fn distinct(&mut self, count: usize, items: &[u64]) -> Vec<u64> {
        let mut chosen = Vec::new();
        while chosen.len() < count {
            let item = items[self.below(items.len())];
            if !chosen.contains(&item) {
                chosen.push(item);
            }
        }
        chosen
    }
}

/// The structure `rusage`: the times of the program and of the system, in seconds and microseconds, and other numbers.
#[repr(C)]
struct Usage {
    times: [i64; 4],
    others: [i64; 14],
}

extern "C" {
    fn getrusage(who: i32, usage: *mut Usage) -> i32;
}

/// The processes that this one has waited for.
const CHILDREN: i32 = -1;

/// Returns the processor time of the thread in microseconds.
fn now() -> f64 {
    clock::processor_time().as_secs_f64() * 1e6
}

/// Returns the processor time of ended processes that this one started, in microseconds.
fn now_of_children() -> f64 {
    let mut usage = Usage {
        times: [0; 4],
        others: [0; 14],
    };
    // SAFETY: the pointer is to a value of the C structure.
    let status = unsafe { getrusage(CHILDREN, &mut usage) };
    assert_eq!(status, 0, "no times of processes");
    let [user, micros, system, other] = usage.times;
    (user + system) as f64 * 1e6 + (micros + other) as f64
}

/// The three forms of the documents of all words.
struct Forms {
    index: InvertedIndex,
    arrays: Arrays,
    bitmaps: Vec<Bitmap>,
}

/// The documents of all words in one array, and where those of each word start.
struct Arrays {
    numbers: Vec<u32>,
    starts: Vec<u32>,
}

impl Arrays {
    fn new(lists: &[Vec<u32>]) -> Self {
        let mut starts = vec![0];
        for list in lists {
            starts.push(starts[starts.len() - 1] + list.len() as u32);
        }
        let numbers = lists.concat();
        Arrays { numbers, starts }
    }

    /// Returns the documents of a word.
    fn list(&self, word: u64) -> &[u32] {
        let word = word as usize;
        &self.numbers[self.starts[word] as usize..self.starts[word + 1] as usize]
    }

    fn bytes(&self) -> u64 {
        4 * (self.numbers.len() + self.starts.len()) as u64
    }
}

/// Puts the documents that have all words into a vector, by the index.
#[inline(never)]
fn by_index(forms: &Forms, query: &[u64], found: &mut Vec<u32>) {
    let set = forms.index.intersection_of(query[0], &query[1..]);
    found.extend(set.iter().map(|it| it as u32));
}

/// Puts the documents that have all words into a vector: each list is searched in steps that double.
#[inline(never)]
fn by_galloping(forms: &Forms, query: &[u64], found: &mut Vec<u32>) {
    found.extend_from_slice(forms.arrays.list(query[0]));
    for word in &query[1..] {
        keep(found, forms.arrays.list(*word));
    }
}

/// Keeps the numbers that are in the other list too.
fn keep(found: &mut Vec<u32>, other: &[u32]) {
    let (mut from, mut kept) = (0, 0);
    for i in 0..found.len() {
        let x = found[i];
        let mut step = 1;
        while from + step < other.len() && other[from + step] < x {
            from += step;
            step *= 2;
        }
        let to = (from + step + 1).min(other.len());
        from += other[from..to].partition_point(|y| *y < x);
        if from == other.len() {
            break;
        }
        if other[from] == x {
            found[kept] = x;
            kept += 1;
        }
    }
    found.truncate(kept);
}

/// Puts the documents that have all words into a vector, by bitmaps.
#[inline(never)]
fn by_bitmaps(forms: &Forms, query: &[u64], found: &mut Vec<u32>) {
    let bitmap = |i: usize| &forms.bitmaps[query[i] as usize];
    let mut both = bitmap(0).and(bitmap(1));
    for i in 2..query.len() {
        both.keep(bitmap(i));
    }
    both.numbers(found);
}

type Engine = fn(&Forms, &[u64], &mut Vec<u32>);

const ENGINES: [Engine; 3] = [by_index, by_galloping, by_bitmaps];

/// Returns the number of answers to all queries, and a checksum of these.
fn answers(
    engine: Engine,
    forms: &Forms,
    queries: &[Vec<u64>],
    found: &mut Vec<u32>,
) -> (u64, u64) {
    let (mut count, mut sum) = (0, 0u64);
    for query in queries {
        found.clear();
        engine(forms, query, found);
        count += found.len() as u64;
        for document in found.iter() {
            sum = sum.wrapping_mul(31).wrapping_add(u64::from(*document));
        }
    }
    (count, sum)
}

/// Random queries of one kind and size.
struct Row {
    name: String,
    queries: Vec<Vec<u64>>,
    /// The least time of all queries by each engine.
    least: [f64; 3],
    /// The number of answers of each engine, and their checksum.
    results: [(u64, u64); 3],
}

impl Row {
    fn new(name: String, queries: Vec<Vec<u64>>) -> Self {
        let least = [f64::INFINITY; 3];
        let results = [(0, 0); 3];
        Row {
            name,
            queries,
            least,
            results,
        }
    }

    /// Makes all queries by each engine.
    fn pass(&mut self, forms: &Forms, found: &mut Vec<u32>) {
        for (i, engine) in ENGINES.into_iter().enumerate() {
            let start = now();
            let result = black_box(answers(engine, forms, black_box(&self.queries), found));
            self.least[i] = self.least[i].min(now() - start);
            self.results[i] = result;
        }
    }

    /// Prints the mean number of documents found, and the mean times. Returns the checksum.
    fn print(&self) -> u64 {
        let [(count, sum), others @ ..] = self.results;
        assert_eq!(others, [(count, sum); 2], "other answers");
        let each = |it: f64| it / self.queries.len() as f64;
        let [here, there, bitmaps] = self.least.map(each);
        println!(
            "|{}|{:.1}|{here:.2} ({:.2})|{there:.2}|{bitmaps:.2} ({:.2})|",
            self.name,
            each(count as f64),
            here / there,
            bitmaps / there
        );
        sum
    }
}

/// Prints the times of an example by `grep` and by the index.
fn compare_grep(
    corpus: &Corpus,
    forms: &Forms,
    words: &[&str],
    passes: usize,
) -> std::io::Result<()> {
    let mut query: Vec<u64> = words.iter().map(|it| corpus.number(it)).collect();
    query.sort_by_key(|it| forms.index.count(*it));
    let mut found = Vec::new();
    let mut least = [f64::INFINITY; 2];
    for _ in 0..passes {
        found.clear();
        let start = now();
        by_index(forms, &query, &mut found);
        least[0] = least[0].min(now() - start);
    }
    for _ in 0..3 {
        let start = now_of_children();
        let files = grep::found(&corpus.paths, words)?;
        least[1] = least[1].min(now_of_children() - start);
        assert_eq!(found, files, "other answers of grep");
    }
    let [here, there] = least.map(|it| it / 1e3);
    println!(
        "`{}`: {} documents, the same by `grep` in {there:.0} ms and here in {here:.3} ms.",
        words.join(" "),
        found.len()
    );
    Ok(())
}

/// Makes the three forms, and prints the table of their sizes.
fn forms_of(corpus: &mut Corpus) -> Forms {
    let lists = std::mem::take(&mut corpus.lists);
    let members = |(word, list): (u64, &Vec<u32>)| -> Vec<(u64, u64)> {
        list.iter().map(|it| (word, u64::from(*it))).collect()
    };
    let pairs: Vec<(u64, u64)> = (0..).zip(&lists).flat_map(members).collect();
    let (words, documents) = (lists.len() as u64, corpus.paths.len() as u64);
    let start = now();
    let index = InvertedIndex::from_pairs(words, documents, &pairs).expect("ascending pairs");
    let build = (now() - start) * 1e3 / pairs.len() as f64;
    let mut bitmaps = Vec::with_capacity(lists.len());
    let before = roaring::allocated();
    bitmaps.extend(lists.iter().map(|it| Bitmap::new(it)));
    let heap = roaring::allocated() - before;
    let arrays = Arrays::new(&lists);
    println!(
        "{documents} documents, {words} words, {} pairs; a build takes {build:.1} ns a pair",
        pairs.len()
    );
    println!("\n|form|bytes|bits a pair|\n|---|---:|---:|");
    let sum = |bytes: fn(&Bitmap) -> u64| bitmaps.iter().map(bytes).sum();
    for (form, bytes) in [
        ("`InvertedIndex`", index.heap_size() as u64),
        ("sorted arrays", arrays.bytes()),
        ("roaring, containers alone", sum(Bitmap::container_bytes)),
        ("roaring, saved", sum(Bitmap::saved_bytes)),
        ("roaring, heap", heap),
        ("the documents", corpus.bytes),
    ] {
        let ratio = bytes as f64 / arrays.bytes() as f64;
        let bits = bytes as f64 * 8.0 / pairs.len() as f64;
        println!("|{form}|{bytes} ({ratio:.2})|{bits:.1}|");
    }
    Forms {
        index,
        arrays,
        bitmaps,
    }
}

/// Returns the words of random queries of one size: those of one document, or any.
fn queries_of(random: &mut Random, forms: &Forms, size: usize, of_one: bool) -> Vec<Vec<u64>> {
    let chosen = |it: &u64| COUNTS.contains(&forms.arrays.list(*it).len());
    let words: Vec<u64> = (0..forms.index.terms()).filter(chosen).collect();
    let mut words_of = vec![Vec::new(); forms.index.universe() as usize];
    for word in &words {
        for document in forms.arrays.list(*word) {
            words_of[*document as usize].push(*word);
        }
    }
    words_of.retain(|it| it.len() >= size);
    assert!(!words_of.is_empty(), "too few documents");
    let query = |_| {
        let from = if of_one {
            &words_of[random.below(words_of.len())]
        } else {
            &words
        };
        let mut query = random.distinct(size, from);
        query.sort_by_key(|it| forms.index.count(*it));
        query
    };
    (0..QUERIES).map(query).collect()
}

fn main() -> Result<(), Box<dyn std::error::Error>> {
    let mut arguments = std::env::args().skip(1);
    let folder = arguments.next().ok_or("usage: inverted FOLDER [PASSES]")?;
    let passes = arguments.next().map_or(Ok(15), |it| it.parse())?;
    let mut corpus = Corpus::read(folder.as_ref())?;
    let forms = forms_of(&mut corpus);
    let mut random = Random(1);
    let mut rows = Vec::new();
    for (of_one, kind) in [(true, "of one document"), (false, "of all words")] {
        for size in SIZES {
            let queries = queries_of(&mut random, &forms, size, of_one);
            rows.push(Row::new(format!("{size} {kind}"), queries));
        }
    }
    let mut found = Vec::new();
    for _ in 0..passes {
        rows.iter_mut().for_each(|it| it.pass(&forms, &mut found));
    }
    println!("\n|words|documents|here|galloping|roaring|\n|---|---:|---:|---:|---:|");
    let sums: Vec<u64> = rows.iter().map(Row::print).collect();
    println!("\nAll answers are equal; their checksums are {sums:016x?}.");
    for words in EXAMPLES {
        compare_grep(&corpus, &forms, words, passes)?;
    }
    Ok(())
}
