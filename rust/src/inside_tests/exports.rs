//! Compares each export for C with a plain model of its structure: a list, and what is found in it by scans. Codes and
//! statuses are those of `vers.h`. Only the build of wrong bodies has the exports in plain Rust.

use crate::programs::vers_c::asked::Ask;
use crate::programs::vers_c::asks::{vers_ask, vers_ask_each, vers_ask_rows, vers_change, vers_value};
use crate::programs::vers_c::builds::{
    vers_binary_rmq_build, vers_bits_build, vers_fast_rmq_build, vers_growing_build, vers_postings_build,
    vers_sorted_build, vers_sparse_build, vers_symbols_build, vers_symbols_build_bytes, vers_symbols_build_u16s,
    vers_symbols_build_u32s, vers_tree_build,
};
use crate::programs::vers_c::combine::vers_combine;
use crate::programs::vers_c::documents::{vers_documents, vers_inverted_build, vers_joined};
use crate::programs::vers_c::handle::VersHandle;
use crate::programs::vers_c::held::Held;
use crate::programs::vers_c::quick;
use crate::programs::vers_c::saves::{vers_load, vers_save, vers_saved_size};
use crate::programs::vers_c::shares::{vers_clone, vers_free, vers_intersect};
use crate::programs::vers_c::texts::{
    vers_count, vers_count_each, vers_extract, vers_first_places, vers_places, vers_text_build, vers_text_build_bytes,
    vers_text_build_u16s,
};
use crate::proved::vers_bits::bit_vec::MAX_LEN as MOST_BITS;
use crate::proved::vers_rmq::rmq::fast_rmq::MAX_LEN as MOST_ITEMS;
use crate::proved::vers_saved::{FACTOR, START, TURN};
use crate::rattle::mutants::{grant, lower};
use crate::rattle::Global;

const DONE: u32 = 0;
const ABSENT: u32 = 1;
const UNKNOWN: u32 = 2;
const VACANT: u32 = 3;
const REFUSED: u32 = 4;
const OCCUPIED: u32 = 5;
const NO_MEMORY: u32 = 6;
const SHARED: u32 = 7;

/// The code after the last query.
const CODES: u32 = 60;

/// A status and a number.
type Expected = (u32, u64);

/// What a structure answers to a query with three numbers.
type Model = dyn Fn(u32, u64, u64, u64) -> Expected;

fn found(number: u64) -> Expected {
    (DONE, number)
}

fn found_if(number: Option<u64>) -> Expected {
    number.map_or((ABSENT, 0), found)
}

fn item(list: &[u64], at: u64) -> Option<u64> {
    list.get(usize::try_from(at).unwrap()).copied()
}

fn position(at: Option<usize>) -> Option<u64> {
    at.map(|it| it as u64)
}

fn empty() -> VersHandle {
    VersHandle { is_built: false, held: Held::vacant(Global) }
}

/// Builds a structure, into an empty handle alone.
fn made(build: impl Fn(&mut VersHandle) -> u32) -> VersHandle {
    let mut handle = empty();
    assert_eq!(build(&mut handle), DONE);
    assert_eq!(build(&mut handle), OCCUPIED);
    handle
}

/// Asserts that a build is refused with a status, and leaves an empty handle.
fn refused(status: u32, build: impl Fn(&mut VersHandle) -> u32) {
    let mut handle = empty();
    assert_eq!(build(&mut handle), status);
    assert!(!handle.is_built);
}

fn ask(handle: &mut VersHandle, code: u32, a: u64, b: u64, c: u64) -> Expected {
    let answer = vers_ask(Global, handle, code, a, b, c);
    (answer.status, answer.value)
}

fn number_or(expected: Expected, other: u64) -> u64 {
    if expected.0 == DONE {
        expected.1
    } else {
        other
    }
}

/// Asks each query by each export for queries, with all triples of the numbers, and compares with a model.
fn compare(handle: &mut VersHandle, model: &Model, numbers: &[u64]) {
    for code in 0..=CODES {
        let status = if model(code, 0, 0, 0).0 == UNKNOWN { UNKNOWN } else { DONE };
        let (mut rows, mut wanted) = (vec![], vec![]);
        for (b, c) in numbers.iter().flat_map(|b| numbers.iter().map(|c| (*b, *c))) {
            let expected: Vec<Expected> = numbers.iter().map(|a| model(code, *a, b, c)).collect();
            for (a, expected) in numbers.iter().zip(&expected) {
                assert_eq!(ask(handle, code, *a, b, c), *expected, "query {code} of {a} {b} {c}");
                rows.push(Ask { a: *a, b, c });
                wanted.push(if status == DONE { number_or(*expected, 77) } else { *a });
            }
            let mut each: Vec<usize> = numbers.iter().map(|it| *it as usize).collect();
            assert_eq!(vers_ask_each(Global, handle, code, &mut each, b, c, 77), status);
            assert!(each.iter().map(|it| *it as u64).eq(wanted[wanted.len() - each.len()..].iter().copied()), "{code}");
        }
        let asked: Vec<(u64, u64)> = rows.iter().map(|it| (it.b, it.c)).collect();
        assert_eq!(vers_ask_rows(Global, handle, code, &mut rows, 77), status);
        assert!(rows.iter().map(|it| it.a).eq(wanted), "rows of query {code}");
        assert!(rows.iter().map(|it| (it.b, it.c)).eq(asked));
        for a in numbers {
            assert_eq!(vers_value(Global, handle, code, *a), number_or(model(code, *a, 0, 0), u64::MAX), "{code} {a}");
        }
    }
    compare_runs(handle, model);
    compare_quick(handle, model, numbers);
}

/// Asks each query with runs of numbers, which some structures read as iterators do.
fn compare_runs(handle: &mut VersHandle, model: &Model) {
    for (code, first) in (0..=CODES).flat_map(|code| [(code, 0), (code, 29)]) {
        let status = if model(code, 0, 0, 0).0 == UNKNOWN { UNKNOWN } else { DONE };
        let answer = |a| if status == DONE { number_or(model(code, a, 0, 0), 77) } else { a };
        let mut each: Vec<usize> = (first..first + 130).collect();
        assert_eq!(vers_ask_each(Global, handle, code, &mut each, 0, 0, 77), status);
        assert!(each.iter().zip(first..).all(|(it, a)| *it as u64 == answer(a as u64)), "query {code} from {first} on");
    }
}

/// Asks the exports of one query each, which answer for any structure.
fn compare_quick(handle: &mut VersHandle, model: &Model, numbers: &[u64]) {
    use quick::*;
    let of_one = [
        (vers_quick_bits_get as fn(Global, &mut VersHandle, u64) -> _, 1),
        (vers_quick_bits_rank0, 4),
        (vers_quick_bits_rank1, 5),
        (vers_quick_bits_select0, 6),
        (vers_quick_bits_select1, 7),
        (vers_quick_sorted_get, 1),
        (vers_quick_sorted_rank, 8),
        (vers_quick_sorted_predecessor, 10),
        (vers_quick_sorted_successor, 11),
        (vers_quick_symbols_get, 1),
        (vers_quick_tree_get, 1),
        (vers_quick_values_get, 1),
        (vers_quick_tree_close, 27),
        (vers_quick_tree_parent, 33),
        (vers_quick_tree_first_child, 34),
        (vers_quick_tree_next_sibling, 36),
        (vers_quick_tree_depth, 43),
    ];
    for (a, b) in numbers.iter().flat_map(|a| numbers.iter().map(|b| (*a, *b))) {
        for (call, code) in of_one {
            let answer = call(Global, handle, a);
            assert_eq!((answer.status, answer.value), model(code, a, 0, 0), "quick query {code} of {a}");
        }
        let answer = vers_quick_values_range_min(Global, handle, a, b);
        assert_eq!((answer.status, answer.value), model(48, a, b, 0), "{a} {b}");
        let answer = vers_quick_symbols_rank(Global, handle, a, b);
        assert_eq!((answer.status, answer.value), model(14, a, b, 0), "{a} {b}");
        for c in numbers {
            let answer = vers_quick_symbols_quantile(Global, handle, a, b, *c);
            assert_eq!((answer.status, answer.value), model(18, a, b, *c), "{a} {b} {c}");
        }
    }
}

/// Bits, a third of them ones, and the same as words.
fn scattered(n: usize) -> (Vec<bool>, Vec<u64>) {
    let mut state = 88_172_645_463_325_252u64;
    let bits: Vec<bool> = (0..n)
        .map(|_| {
            state ^= state << 13;
            state ^= state >> 7;
            state ^= state << 17;
            state % 3 == 0
        })
        .collect();
    let words = in_words(&bits);
    (bits, words)
}

fn in_words(bits: &[bool]) -> Vec<u64> {
    bits.chunks(64).map(number).collect()
}

fn number(bits: &[bool]) -> u64 {
    bits.iter().rev().fold(0, |sum, it| 2 * sum + u64::from(*it))
}

/// The number of the `n` bits from a position on.
fn part(bits: &[bool], at: u64, n: u64) -> Option<u64> {
    let end = at.checked_add(n).filter(|it| n <= 64 && *it <= bits.len() as u64)?;
    Some(number(&bits[at as usize..end as usize]))
}

fn count(bits: &[bool], bit: bool, at: u64) -> u64 {
    bits.iter().zip(0..at).filter(|it| *it.0 == bit).count() as u64
}

/// The position of a bit by its number, or the length.
fn select(bits: &[bool], bit: bool, number: u64) -> u64 {
    let mut positions = (0..bits.len()).filter(|it| bits[*it] == bit);
    position(positions.nth(usize::try_from(number).unwrap())).unwrap_or(bits.len() as u64)
}

/// What lists of bits answer: which has selects of zeros, which parts as numbers, and whether an empty part is one.
fn bits_model(bits: Vec<bool>, heap: u64, kind: u32) -> impl Fn(u32, u64, u64, u64) -> Expected {
    let (is_growing, is_sparse) = (kind == 0, kind == 2);
    move |code, a, b, _| match code {
        0 => found(bits.len() as u64),
        1 => found_if(bits.get(a as usize).map(|it| u64::from(*it))),
        2 if is_growing && b == 0 => found_if(None),
        2 if !is_sparse => found_if(part(&bits, a, b)),
        3 => found(heap),
        4 | 5 if !is_growing => found(count(&bits, code == 5, a)),
        6 if !is_growing && !is_sparse => found(select(&bits, false, a)),
        7 if !is_growing => found(select(&bits, true, a)),
        _ => (UNKNOWN, 0),
    }
}

/// The bytes of the heap, which the tests of each structure compare with its definition.
fn heap_of(handle: &mut VersHandle) -> u64 {
    let (status, bytes) = ask(handle, 3, 0, 0, 0);
    assert!(status == DONE && bytes > 0);
    bytes
}

const NUMBERS: [u64; 12] = [0, 1, 2, 3, 7, 9, 64, 65, 98, 99, 100, u64::MAX];

#[test]
fn bits_answer_as_their_list() {
    let (bits, words) = scattered(100);
    let mut handle = made(|it| vers_growing_build(Global, &words, 99, it));
    let heap = heap_of(&mut handle);
    assert_eq!(heap, 16);
    compare(&mut handle, &bits_model(bits[..99].to_vec(), heap, 0), &NUMBERS);
    let mut handle = made(|it| vers_bits_build(Global, &words, 99, it));
    let heap = heap_of(&mut handle);
    compare(&mut handle, &bits_model(bits[..99].to_vec(), heap, 1), &NUMBERS);
    let ones: Vec<u64> = (0..99).filter(|it| bits[*it as usize]).collect();
    let mut handle = made(|it| vers_sparse_build(Global, &ones, 99, it));
    let heap = heap_of(&mut handle);
    compare(&mut handle, &bits_model(bits[..99].to_vec(), heap, 2), &NUMBERS);
    let mut handle = made(|it| vers_growing_build(Global, &words, usize::MAX, it));
    assert_eq!(ask(&mut handle, 0, 0, 0, 0), found(128));
    refused(REFUSED, |it| vers_sparse_build(Global, &[3, 3], 9, it));
    refused(REFUSED, |it| vers_sparse_build(Global, &[3, 9], 9, it));
}

#[test]
fn ascending_lists_answer_as_their_elements() {
    let elements: Vec<u64> = vec![2, 4, 4, 9, 30, 64, 99, 99, 99, 1000];
    let mut handle = made(|it| vers_sorted_build(Global, &elements, it));
    let heap = heap_of(&mut handle);
    let numbers = [0, 1, 2, 3, 4, 8, 9, 10, 99, 100, 1001, u64::MAX];
    let model = move |code, a: u64, _, _| match code {
        0 => found(10),
        1 => found_if(item(&elements, a)),
        3 => found(heap),
        8 => found(elements.iter().filter(|it| **it < a).count() as u64),
        9 => found(u64::from(elements.contains(&a))),
        10 => found_if(elements.iter().filter(|it| **it <= a).next_back().copied()),
        11 => found_if(elements.iter().find(|it| **it >= a).copied()),
        12 => found_if(item(&elements, a).map(|it| it - a.checked_sub(1).map_or(0, |a| elements[a as usize]))),
        _ => (UNKNOWN, 0),
    };
    compare(&mut handle, &model, &numbers);
    refused(REFUSED, |it| vers_sorted_build(Global, &[3, 4, 3], it));
}

#[test]
fn ascending_lists_are_combined_as_sets() {
    let lists = [vec![], vec![2, 4, 4, 9, u64::MAX], vec![0, 4, 9, 9, 30], vec![30, u64::MAX, u64::MAX]];
    for (one, other) in lists.iter().flat_map(|one| lists.iter().map(move |other| (one, other))) {
        let [mut first, mut second] = [one, other].map(|list| made(|it| vers_sorted_build(Global, list, it)));
        let mut all: Vec<u64> = one.iter().chain(other).copied().collect();
        all.sort_unstable();
        all.dedup();
        let has = [
            |one: bool, other: bool| one && other,
            |one: bool, other: bool| one || other,
            |one: bool, other: bool| one && !other,
        ];
        for (code, has) in (0..3).zip(has) {
            let set: Vec<u64> = all.iter().filter(|it| has(one.contains(it), other.contains(it))).copied().collect();
            let mut into = empty();
            assert_eq!(vers_combine(Global, &mut first, &mut second, code, &mut into), DONE);
            assert_eq!(vers_combine(Global, &mut first, &mut second, code, &mut into), OCCUPIED);
            assert_eq!(ask(&mut into, 0, 0, 0, 0), found(set.len() as u64));
            assert!(set.iter().zip(0..).all(|(it, k)| ask(&mut into, 1, k, 0, 0) == found(*it)));
            assert_eq!(ask(&mut first, 0, 0, 0, 0), found(one.len() as u64));
            assert_eq!(ask(&mut second, 0, 0, 0, 0), found(other.len() as u64));
        }
        let mut none = empty();
        assert_eq!(vers_combine(Global, &mut first, &mut second, 3, &mut none), REFUSED);
        assert_eq!(vers_combine(Global, &mut first, &mut empty(), 1, &mut none), REFUSED);
        assert_eq!(vers_combine(Global, &mut empty(), &mut second, 1, &mut none), REFUSED);
        let mut bits = made(|it| vers_bits_build(Global, &[5], 3, it));
        assert_eq!(vers_combine(Global, &mut first, &mut bits, 0, &mut none), REFUSED);
        assert_eq!(vers_combine(Global, &mut bits, &mut second, 0, &mut none), REFUSED);
        assert!(!none.is_built && bits.is_built);
    }
}

#[test]
fn symbols_answer_as_their_list() {
    let numbers: Vec<u64> = (0..20).map(|k| (k * k * 7 + k) % 11 + 16).collect();
    let mut handle = made(|it| vers_symbols_build(Global, &numbers, 4, it));
    let heap = heap_of(&mut handle);
    let items: Vec<u64> = numbers.iter().map(|it| it % 16).collect();
    let model = move |code, a: u64, b: u64, c: u64| {
        let positions = |from: u64, to: u64, symbol: u64| {
            (from..to).filter(|it| items[*it as usize] == symbol % 16).collect::<Vec<u64>>()
        };
        let mut range = if a <= b && b <= 20 { items[a as usize..b as usize].to_vec() } else { vec![] };
        range.sort();
        match code {
            0 => found(20),
            1 => found_if(item(&items, a)),
            3 => found(heap),
            13 => found(4),
            14 => found_if((a <= 20).then(|| positions(0, a, b).len() as u64)),
            15 => found_if(item(&positions(0, 20, b), a)),
            16 => found_if((a < 20 && a <= b && b <= 20).then(|| positions(a, b, c).len() as u64)),
            17 => found_if(item(&positions(a.min(20), 20, c), b)),
            18 => found_if(item(&range, c)),
            19 => found_if(range.first().copied()),
            20 => found_if(range.last().copied()),
            21 => found_if(range.len().checked_sub(1).map(|last| range[last / 2])),
            22 => found_if(range.iter().filter(|it| **it <= c % 16).next_back().copied()),
            23 => found_if(range.iter().find(|it| **it >= c % 16).copied()),
            _ => (UNKNOWN, 0),
        }
    };
    compare(&mut handle, &model, &[0, 1, 2, 3, 5, 10, 15, 18, 19, 20, 21, u64::MAX]);
    refused(REFUSED, |it| vers_symbols_build(Global, &numbers, 65, it));
}

/// Asserts that a list of symbols of a width, or a text whose first symbols they are, has these symbols.
fn has_symbols(mut handle: VersHandle, width: u64, symbols: &[u64]) {
    assert_eq!(ask(&mut handle, 0, 0, 0, 0), found(symbols.len() as u64));
    assert_eq!(ask(&mut handle, 13, 0, 0, 0), found(width));
    for (at, symbol) in symbols.iter().enumerate() {
        assert_eq!(ask(&mut handle, 1, at as u64, 0, 0), found(*symbol));
    }
}

#[test]
fn symbols_of_narrow_numbers_are_their_low_bits() {
    let (bytes, shorts, words) = ([200, 7, 255, 7], [300, 7, 65535], [70000, 7, 4294967295]);
    has_symbols(made(|it| vers_symbols_build_bytes(Global, &bytes, 7, it)), 7, &[72, 7, 127, 7]);
    has_symbols(made(|it| vers_symbols_build_bytes(Global, &bytes, 64, it)), 64, &[200, 7, 255, 7]);
    has_symbols(made(|it| vers_symbols_build_u16s(Global, &shorts, 9, it)), 9, &[300, 7, 511]);
    has_symbols(made(|it| vers_symbols_build_u16s(Global, &shorts, 64, it)), 64, &[300, 7, 65535]);
    has_symbols(made(|it| vers_symbols_build_u32s(Global, &words, 32, it)), 32, &[70000, 7, 4294967295]);
    has_symbols(made(|it| vers_symbols_build_u32s(Global, &words, 64, it)), 64, &[70000, 7, 4294967295]);
    refused(REFUSED, |it| vers_symbols_build_bytes(Global, &bytes, 65, it));
    refused(REFUSED, |it| vers_symbols_build_u16s(Global, &shorts, 65, it));
    refused(REFUSED, |it| vers_symbols_build_u32s(Global, &words, 65, it));
}

#[test]
fn texts_of_narrow_symbols_have_their_positions() {
    let (bytes, shorts) = ([3, 200, 3, 200, 3], [300, 7, 300, 65535]);
    let mut handle = made(|it| vers_text_build_bytes(Global, &bytes, 8, 2, it));
    assert_eq!((ask(&mut handle, 0, 0, 0, 0), ask(&mut handle, 13, 0, 0, 0)), (found(5), found(8)));
    assert_eq!(ask(&mut handle, 52, 0, 0, 0), found(2));
    assert_eq!(vers_count(Global, &mut handle, &[200, 3]).value, 2);
    let mut handle = made(|it| vers_text_build_u16s(Global, &shorts, 16, 3, it));
    assert_eq!((ask(&mut handle, 0, 0, 0, 0), ask(&mut handle, 13, 0, 0, 0)), (found(4), found(16)));
    assert_eq!(ask(&mut handle, 52, 0, 0, 0), found(3));
    assert_eq!(vers_count(Global, &mut handle, &[300]).value, 2);
    for (width, step) in [(8, 0), (0, 2), (17, 2), (65544, 2), (7, 2)] {
        refused(REFUSED, |it| vers_text_build_bytes(Global, &bytes, width, step, it));
    }
    refused(REFUSED, |it| vers_text_build_bytes(Global, &[127, 128], 7, 2, it));
    for (width, step) in [(16, 0), (0, 2), (17, 2), (15, 2)] {
        refused(REFUSED, |it| vers_text_build_u16s(Global, &shorts, width, step, it));
    }
}

#[test]
fn values_answer_as_their_list() {
    let values: Vec<u64> = (0..150).map(|k| (k * k * 13 + 5 * k) % 31 + 4).collect();
    for is_fast in [true, false] {
        let build = if is_fast { vers_fast_rmq_build } else { vers_binary_rmq_build };
        let mut handle = made(|it| build(Global, &values, it));
        let (heap, values) = (heap_of(&mut handle), values.clone());
        let model = move |code, a: u64, b: u64, _| match code {
            0 => found(150),
            1 => found_if(item(&values, a)),
            3 => found(heap),
            48 => found_if(if b < 150 { (a..=b).min_by_key(|it| values[*it as usize]) } else { None }),
            _ => (UNKNOWN, 0),
        };
        compare(&mut handle, &model, &[0, 1, 2, 5, 40, 41, 99, 128, 148, 149, 150, u64::MAX]);
    }
    lower(MOST_ITEMS, 10);
    made(|it| vers_fast_rmq_build(Global, &values[..10], it));
    refused(NO_MEMORY, |it| vers_fast_rmq_build(Global, &values[..11], it));
}

#[test]
fn documents_answer_as_their_list() {
    let documents = [3, 5, 8, 30, 64, 99, 100];
    let costs = [7, 2, 9, 2, 1, 5, 1];
    let mut handle = made(|it| vers_postings_build(Global, &documents, &costs, it));
    let heap = heap_of(&mut handle);
    let model = move |code, a: u64, b: u64, _| match code {
        0 => found(7),
        1 => found_if(item(&documents, a)),
        3 => found(heap),
        8 => found(documents.iter().filter(|it| **it < a).count() as u64),
        9 => found(u64::from(documents.contains(&a))),
        11 => found_if(documents.iter().find(|it| **it >= a).copied()),
        49 => {
            let within = (0..7).filter(|it| a <= documents[*it] && documents[*it] <= b);
            found_if(within.min_by_key(|it| costs[*it]).map(|it| documents[it]))
        }
        50 => found_if(item(&costs, a)),
        _ => (UNKNOWN, 0),
    };
    compare(&mut handle, &model, &[0, 1, 2, 3, 5, 6, 7, 8, 30, 99, 101, u64::MAX]);
    let mut other = made(|it| vers_postings_build(Global, &[5, 6, 64, 101], &[1; 4], it));
    let mut both = empty();
    assert_eq!(vers_intersect(Global, &mut handle, &mut other, &mut both), DONE);
    compare(&mut both, &numbers_model(vec![5, 64]), &[0, 1, 2, 3]);
    compare(&mut handle, &model, &[0, 5, 100]);
    assert_eq!(vers_intersect(Global, &mut handle, &mut other, &mut both), OCCUPIED);
    let mut none = empty();
    assert_eq!(vers_intersect(Global, &mut handle, &mut both, &mut none), REFUSED);
    assert_eq!(vers_intersect(Global, &mut handle, &mut empty(), &mut none), REFUSED);
    assert!(!none.is_built && handle.is_built && other.is_built);
    refused(REFUSED, |it| vers_postings_build(Global, &[3, 3], &[1, 1], it));
    refused(REFUSED, |it| vers_postings_build(Global, &[3, 4], &[1], it));
}

/// Terms, each with a document.
const TERMS: [u64; 9] = [0, 0, 0, 2, 2, 2, 2, 3, 3];
const DOCUMENTS: [u64; 9] = [0, 3, 9, 0, 4, 8, 9, 4, 5];

/// The documents of a term for which a test of the document passes.
fn documents_if(term: u64, test: impl Fn(u64) -> bool) -> Vec<u64> {
    (0..10).filter(|it| TERMS.iter().zip(&DOCUMENTS).any(|pair| pair == (&term, it)) && test(*it)).collect()
}

#[test]
fn inverted_indexes_answer_as_their_lists() {
    let mut handle = made(|it| vers_inverted_build(Global, 5, 10, &TERMS, &DOCUMENTS, it));
    let heap = heap_of(&mut handle);
    let model = move |code, a: u64, b: u64, _| match code {
        0 => found(9),
        1 => found_if(item(&TERMS, a).zip(item(&DOCUMENTS, a)).map(|(term, document)| 10 * term + document)),
        3 => found(heap),
        53 => found(5),
        54 => found(10),
        55 => found(documents_if(a, |_| true).len() as u64),
        56 => found_if(item(&documents_if(a, |_| true), b)),
        57 => found(documents_if(a, |it| it < b).len() as u64),
        58 => found(u64::from(documents_if(a, |_| true).contains(&b))),
        59 => found_if(documents_if(a, |it| it >= b).first().copied()),
        _ => (UNKNOWN, 0),
    };
    compare(&mut handle, &model, &[0, 1, 2, 3, 4, 5, 8, 9, 10, u64::MAX]);
    for one in [0, 1, 2, 3, 7] {
        let mut into = empty();
        assert_eq!(vers_documents(Global, &mut handle, one, &mut into), DONE);
        assert_eq!(vers_documents(Global, &mut handle, one, &mut into), OCCUPIED);
        compare(&mut into, &numbers_model(documents_if(one, |_| true)), &[0, 1, 2, 3, 4]);
        for other in [0, 1, 2, 3, 7] {
            let has = |term, it| documents_if(term, |_| true).contains(&it);
            let lists = [
                documents_if(one, |it| has(other, it)),
                (0..10).filter(|it| has(one, *it) || has(other, *it)).collect(),
                documents_if(one, |it| !has(other, it)),
            ];
            for (code, list) in (0..3).zip(lists) {
                let mut into = empty();
                assert_eq!(vers_joined(Global, &mut handle, code, &[one, other], &mut into), DONE);
                assert_eq!(vers_joined(Global, &mut handle, code, &[one, other], &mut into), OCCUPIED);
                compare(&mut into, &numbers_model(list), &[0, 1, 2, 5, 6]);
            }
        }
    }
    let mut into = empty();
    assert_eq!(vers_joined(Global, &mut handle, 3, &[0, 2], &mut into), REFUSED);
    assert_eq!(vers_joined(Global, &mut handle, 0, &[], &mut into), REFUSED);
    for (code, list) in (0..3).zip([vec![0, 9], vec![0, 3, 4, 5, 8, 9], vec![5]]) {
        let mut into = empty();
        let terms = [[0, 2, 0], [0, 2, 3], [3, 0, 2]][code as usize];
        assert_eq!(vers_joined(Global, &mut handle, code, &terms, &mut into), DONE);
        compare(&mut into, &numbers_model(list), &[0, 1, 2, 5, 6]);
    }
    let mut other = made(|it| vers_sorted_build(Global, &[1], it));
    for handle in [&mut other, &mut empty()] {
        assert_eq!(vers_joined(Global, handle, 0, &[0, 2], &mut into), REFUSED);
        assert_eq!(vers_documents(Global, handle, 0, &mut into), REFUSED);
    }
    assert!(!into.is_built && handle.is_built && other.is_built);
    made(|it| vers_inverted_build(Global, 0, u64::MAX, &[], &[], it));
    made(|it| vers_inverted_build(Global, 1, 9, &[0, 0], &[1, 3], it));
    for (limit, universe) in [(3, 10), (4, 9), (0, 10), (1 << 62, 4)] {
        refused(REFUSED, |it| vers_inverted_build(Global, limit, universe, &TERMS, &DOCUMENTS, it));
    }
    refused(REFUSED, |it| vers_inverted_build(Global, 5, 10, &TERMS, &DOCUMENTS[..8], it));
    refused(REFUSED, |it| vers_inverted_build(Global, 5, 10, &TERMS[..8], &DOCUMENTS, it));
    refused(REFUSED, |it| vers_inverted_build(Global, 5, 10, &[1, 1], &[3, 3], it));
    refused(REFUSED, |it| vers_inverted_build(Global, 5, 10, &[1, 0], &[3, 4], it));
}

/// What plain numbers answer.
fn numbers_model(numbers: Vec<u64>) -> impl Fn(u32, u64, u64, u64) -> Expected {
    move |code, a, _, _| match code {
        0 => found(numbers.len() as u64),
        1 => found_if(item(&numbers, a)),
        _ => (UNKNOWN, 0),
    }
}

#[test]
fn texts_answer_as_their_symbols() {
    let symbols: Vec<u64> = (0..70).map(|k| (k * k + k / 3) % 4).collect();
    let mut handle = made(|it| vers_text_build(Global, &symbols, 2, 5, it));
    let heap = heap_of(&mut handle);
    let model = move |code, _, _, _| match code {
        0 => found(70),
        3 => found(heap),
        13 => found(2),
        52 => found(5),
        _ => (UNKNOWN, 0),
    };
    compare(&mut handle, &model, &[0, 1, 69, 70]);
    for pattern in [&[][..], &[1], &[2, 0], &[3], &[0, 2, 1], &[9]] {
        let positions: Vec<u64> =
            (0..=70 - pattern.len()).filter(|it| symbols[*it..].starts_with(pattern)).map(|it| it as u64).collect();
        let answer = vers_count(Global, &mut handle, pattern);
        assert_eq!((answer.status, answer.value), found(positions.len() as u64), "{pattern:?}");
        let mut into = empty();
        assert_eq!(vers_places(Global, &mut handle, pattern, &mut into), DONE);
        assert_eq!(vers_places(Global, &mut handle, pattern, &mut into), OCCUPIED);
        compare(&mut into, &numbers_model(positions.clone()), &[0, 1, 5, 69, 70, 71]);
        let mut order = positions;
        order.sort_by_key(|position| &symbols[*position as usize..]);
        for limit in [0, 1, 3, 71, usize::MAX] {
            let mut into = empty();
            let first = order.iter().copied().take(limit).collect();
            assert_eq!(vers_first_places(Global, &mut handle, pattern, limit, &mut into), DONE);
            assert_eq!(vers_first_places(Global, &mut handle, pattern, limit, &mut into), OCCUPIED);
            compare(&mut into, &numbers_model(first), &[0, 1, 5, 69, 70, 71]);
        }
    }
    for (from, to) in [(0, 0), (0, 70), (3, 9), (70, 70), (9, 3), (60, 71), (71, 71)] {
        let mut into = empty();
        let piece = if from <= to { symbols.get(from..to) } else { None };
        assert_eq!(
            vers_extract(Global, &mut handle, from, to, &mut into),
            if piece.is_some() { DONE } else { REFUSED }
        );
        assert_eq!(into.is_built, piece.is_some());
        if let Some(piece) = piece {
            compare(&mut into, &numbers_model(piece.to_vec()), &[0, 1, 6, 69]);
            assert_eq!(vers_extract(Global, &mut handle, from, to, &mut into), OCCUPIED);
        }
    }
    for (width, step) in [(2, 0), (0, 5), (17, 5), (65538, 5), (1, 5)] {
        refused(REFUSED, |it| vers_text_build(Global, &symbols, width, step, it));
    }
    let mut other = made(|it| vers_sorted_build(Global, &[1], it));
    assert_eq!(vers_count(Global, &mut other, &[1]).status, UNKNOWN);
    refused(REFUSED, |it| vers_places(Global, &mut made(|it| vers_sorted_build(Global, &[1], it)), &[1], it));
    refused(REFUSED, |it| vers_first_places(Global, &mut made(|it| vers_sorted_build(Global, &[1], it)), &[1], 1, it));
    refused(REFUSED, |it| vers_first_places(Global, &mut empty(), &[1], 1, it));
    refused(REFUSED, |it| vers_extract(Global, &mut empty(), 0, 0, it));
}

#[test]
fn many_patterns_are_counted_as_each_one_is() {
    let symbols: Vec<u64> = (0..70).map(|k| (k * k + k / 3) % 4).collect();
    let mut handle = made(|it| vers_text_build(Global, &symbols, 2, 5, it));
    let ends: Vec<u64> = (0..150).map(|k| k * 70 / 149).collect();
    let mut counts = ends.clone();
    assert_eq!(vers_count_each(Global, &mut handle, &symbols, &mut counts), DONE);
    let mut start = 0;
    for (end, count) in ends.iter().map(|it| *it as usize).zip(counts) {
        let pattern = &symbols[start..end];
        let positions = (0..=70 - pattern.len()).filter(|it| symbols[*it..].starts_with(pattern)).count();
        assert_eq!(count, positions as u64, "{pattern:?}");
        start = end;
    }
    for wrong in [[2, 1], [0, 71]] {
        let mut ends = wrong;
        assert_eq!(vers_count_each(Global, &mut handle, &symbols, &mut ends), REFUSED);
        assert_eq!(ends, wrong);
    }
    let (mut other, mut ends) = (made(|it| vers_sorted_build(Global, &[1], it)), [1]);
    assert_eq!(vers_count_each(Global, &mut other, &symbols, &mut ends), UNKNOWN);
    assert_eq!(vers_count_each(Global, &mut empty(), &symbols, &mut ends), VACANT);
    assert_eq!(ends, [1]);
}

/// A node: where it opens and is closed, its parent, and its depth.
#[derive(Clone, Copy)]
struct Node {
    open: usize,
    close: usize,
    parent: Option<usize>,
    depth: u64,
}

/// The nodes of parentheses in preorder, or `None` if these aren't balanced.
fn nodes_of(bits: &[bool]) -> Option<Vec<Node>> {
    let (mut nodes, mut open) = (Vec::<Node>::new(), Vec::<usize>::new());
    for (at, bit) in bits.iter().enumerate() {
        if *bit {
            let parent = open.last().map(|it| nodes[*it].open);
            open.push(nodes.len());
            nodes.push(Node { open: at, close: at, parent, depth: open.len() as u64 - 1 });
        } else {
            nodes[open.pop()?].close = at;
        }
    }
    open.is_empty().then_some(nodes)
}

/// Ones less zeros before a position.
fn excess(bits: &[bool], at: usize) -> i128 {
    bits[..at].iter().map(|it| if *it { 1 } else { -1 }).sum()
}

/// What parentheses answer that need not be balanced.
fn any_tree_expected(bits: &[bool], code: u32, a: u64, b: u64) -> Expected {
    let at = usize::try_from(a).ok().filter(|it| *it < bits.len());
    let after =
        |rise: i128| at.and_then(|i| (i + 1..bits.len()).find(|j| excess(bits, j + 1) == excess(bits, i + 1) + rise));
    let before = |rise: i128| at.and_then(|i| (0..i).rev().find(|j| excess(bits, *j) == excess(bits, i) + rise));
    match code {
        24 => found(count(bits, true, u64::MAX)),
        25 => found(u64::from(nodes_of(bits).is_some())),
        26 => at.map_or((REFUSED, 0), |it| found(excess(bits, it + 1) as u64)),
        27 => found_if(position(after(-1))),
        28 => found_if(position(before(-1))),
        29 => found_if(position(at.and_then(|it| before(if bits[it] { -1 } else { -2 })))),
        30 => found(select(bits, true, a)),
        31 => found_if(position(after(i128::from(b as i64)))),
        _ => found_if(position(before(i128::from(b as i64)))),
    }
}

/// What a node of a forest answers.
fn node_expected(nodes: &[Node], node: Node, code: u32, b: u64) -> Expected {
    let opens = |it: &Node| it.open as u64;
    let is_in = |it: &&Node| node.open <= it.open && it.close <= node.close;
    let is_sibling = |it: &&Node| it.parent == node.parent;
    let is_child = |it: &&Node| it.parent == Some(node.open);
    let is_level = |it: &&Node| it.depth == node.depth;
    let next =
        |of: &dyn Fn(&&Node) -> bool| found_if(nodes.iter().filter(of).find(|it| it.open > node.open).map(opens));
    let previous = |of: &dyn Fn(&&Node) -> bool| {
        found_if(nodes.iter().filter(of).filter(|it| it.open < node.open).last().map(opens))
    };
    match code {
        33 => found_if(position(node.parent)),
        34 => found_if(nodes.iter().find(is_child).map(opens)),
        35 => found_if(nodes.iter().filter(is_child).last().map(opens)),
        36 => next(&is_sibling),
        37 => previous(&is_sibling),
        38 => next(&is_level),
        39 => previous(&is_level),
        40 => {
            let above = |it: &&Node| it.open <= node.open && node.close <= it.close;
            found_if(
                nodes
                    .iter()
                    .filter(above)
                    .find(|it| u128::from(it.depth) + u128::from(b) == u128::from(node.depth))
                    .map(opens),
            )
        }
        41 => found(nodes.iter().filter(|it| it.open < node.open).count() as u64),
        42 => found(u64::from(!nodes.iter().any(|it| is_child(&it)))),
        43 => found(node.depth),
        _ => found(nodes.iter().filter(is_in).count() as u64),
    }
}

fn tree_model(bits: Vec<bool>, heap: u64) -> impl Fn(u32, u64, u64, u64) -> Expected {
    let nodes = nodes_of(&bits);
    move |code, a, b, _| {
        let at = |a: u64| nodes.as_ref().and_then(|all| all.iter().find(|it| it.open as u64 == a)).copied();
        match code {
            0 => found(bits.len() as u64),
            1 => found_if(bits.get(a as usize).map(|it| u64::from(*it))),
            3 => found(heap),
            24..=32 => any_tree_expected(&bits, code, a, b),
            33..=44 => at(a).map_or((REFUSED, 0), |it| node_expected(nodes.as_ref().unwrap(), it, code, b)),
            45 | 46 => nodes.as_ref().map_or((REFUSED, 0), |nodes| {
                let mut level = nodes.iter().filter(|it| it.depth == a).map(|it| it.open as u64);
                found_if(if code == 45 { level.next() } else { level.last() })
            }),
            47 => match (at(a), at(b)) {
                (Some(a), Some(b)) => found(u64::from(a.open <= b.open && b.close <= a.close)),
                _ => (REFUSED, 0),
            },
            51 => found(u64::from(at(a).is_some())),
            _ => (UNKNOWN, 0),
        }
    }
}

#[test]
fn trees_answer_as_their_parentheses() {
    let balanced = "((()())(())()(()(()))())(()())()".chars().map(|it| it == '(').collect::<Vec<bool>>();
    for (bits, is_forest) in [(balanced, true), (scattered(40).0, false)] {
        assert_eq!(nodes_of(&bits).is_some(), is_forest);
        let mut handle = made(|it| vers_tree_build(Global, &in_words(&bits), bits.len(), it));
        let (heap, last) = (heap_of(&mut handle), bits.len() as u64 - 1);
        let minus = |it: u64| it.wrapping_neg();
        let numbers = [0, 1, 2, 4, 7, 13, 24, last - 1, last, last + 1, minus(1), minus(2), 1 << 63];
        compare(&mut handle, &tree_model(bits, heap), &numbers);
    }
    let mut handle = made(|it| vers_tree_build(Global, &[], 0, it));
    assert_eq!((ask(&mut handle, 0, 0, 0, 0), ask(&mut handle, 25, 0, 0, 0)), (found(0), found(1)));
}

#[test]
fn an_empty_handle_answers_that_it_is_vacant() {
    let mut handle = empty();
    for code in 0..=CODES {
        assert_eq!(ask(&mut handle, code, 1, 2, 3), (VACANT, 0));
        assert_eq!(vers_value(Global, &mut handle, code, 1), u64::MAX);
        let (mut each, mut rows) = ([1], [Ask { a: 1, b: 2, c: 3 }]);
        assert_eq!(vers_ask_each(Global, &mut handle, code, &mut each, 2, 3, 4), VACANT);
        assert_eq!(vers_ask_rows(Global, &mut handle, code, &mut rows, 4), VACANT);
        assert!(each == [1] && rows[0].a == 1);
    }
    compare_quick(&mut handle, &|_, _, _, _| (VACANT, 0), &[0, 1]);
    assert_eq!(vers_change(Global, &mut handle, 0, 1, 1), VACANT);
    assert_eq!(vers_count(Global, &mut handle, &[1]).status, VACANT);
    assert_eq!(vers_saved_size(Global, &mut handle).status, VACANT);
    assert_eq!(vers_save(Global, &mut handle, &mut []), VACANT);
    assert_eq!(vers_clone(Global, &mut handle, &mut empty()), VACANT);
    vers_free(Global, &mut handle);
    assert!(!handle.is_built);
}

#[test]
fn changes_are_those_of_the_list() {
    let (mut bits, words) = scattered(70);
    let mut handle = made(|it| vers_growing_build(Global, &words, 70, it));
    for (k, (code, a, b)) in
        (0u64..200).flat_map(|k| [(0, k, 9), (1, k * k, k % 66), (2, k, 3 * k), (3, k % 5, 0)]).enumerate()
    {
        let status = match (code, a, b) {
            (1, _, 65..) => REFUSED,
            (2, position, _) if position >= bits.len() as u64 => REFUSED,
            _ => DONE,
        };
        assert_eq!(vers_change(Global, &mut handle, code, a, b), status, "change {k}");
        match (code, status) {
            (0, _) => bits.push(a % 2 == 1),
            (1, DONE) => bits.extend((0..b).map(|it| a >> it & 1 == 1)),
            (2, DONE) => bits[a as usize] = b % 2 == 1,
            (3, _) => bits.truncate(bits.len() - a as usize),
            _ => {}
        }
        assert_eq!(ask(&mut handle, 0, 0, 0, 0), found(bits.len() as u64));
    }
    for (at, bit) in bits.iter().enumerate() {
        assert_eq!(ask(&mut handle, 1, at as u64, 0, 0), found(u64::from(*bit)));
    }
    assert_eq!(vers_change(Global, &mut handle, 4, 1, 1), UNKNOWN);
    assert_eq!(vers_change(Global, &mut made(|it| vers_bits_build(Global, &words, 70, it)), 0, 1, 1), UNKNOWN);
}

#[test]
fn owners_share_a_structure() {
    let mut handle = made(|it| vers_growing_build(Global, &[5], 3, it));
    let mut other = empty();
    assert_eq!(vers_clone(Global, &mut handle, &mut other), DONE);
    assert_eq!(vers_clone(Global, &mut handle, &mut other), OCCUPIED);
    assert!(handle.is_built && other.is_built);
    assert_eq!((ask(&mut handle, 2, 0, 3, 0), ask(&mut other, 2, 0, 3, 0)), (found(5), found(5)));
    assert_eq!(vers_change(Global, &mut handle, 0, 1, 0), SHARED);
    assert_eq!(vers_change(Global, &mut other, 0, 1, 0), SHARED);
    vers_free(Global, &mut other);
    assert!(!other.is_built && handle.is_built);
    assert_eq!(vers_change(Global, &mut handle, 0, 1, 0), DONE);
    assert_eq!((ask(&mut handle, 0, 0, 0, 0), ask(&mut handle, 2, 0, 4, 0)), (found(4), found(13)));
    vers_free(Global, &mut handle);
    assert!(!handle.is_built);
}

/// Structures of the kinds of saved forms, by their codes, with what two queries answer.
fn of_each_kind() -> Vec<VersHandle> {
    let values = [4, 4, 9, 2];
    vec![
        made(|it| vers_growing_build(Global, &[53, 1], 70, it)),
        made(|it| vers_bits_build(Global, &[53, 1], 70, it)),
        made(|it| vers_sorted_build(Global, &[2, 2, 60], it)),
        made(|it| vers_symbols_build(Global, &values, 4, it)),
        made(|it| vers_sparse_build(Global, &[2, 60], 70, it)),
        made(|it| vers_fast_rmq_build(Global, &values, it)),
        made(|it| vers_tree_build(Global, &[0b001011], 6, it)),
        made(|it| vers_postings_build(Global, &[2, 3, 60, 61], &values, it)),
        made(|it| vers_binary_rmq_build(Global, &values, it)),
        made(|it| vers_text_build(Global, &values, 4, 2, it)),
        made(|it| vers_inverted_build(Global, 4, 70, &[0, 0, 2], &[3, 60, 1], it)),
    ]
}

/// The saved form of a handle's structure.
fn saved(handle: &mut VersHandle) -> Vec<u8> {
    let size = vers_saved_size(Global, handle);
    assert_eq!(size.status, DONE);
    let mut bytes = vec![0xAA; size.value as usize + 1];
    assert_eq!(vers_save(Global, handle, &mut bytes), REFUSED);
    assert!(bytes.iter().all(|it| *it == 0xAA));
    bytes.pop();
    assert_eq!(vers_save(Global, handle, &mut bytes), DONE);
    bytes
}

#[test]
fn saved_forms_are_loaded_as_their_kind() {
    for (kind, handle) in of_each_kind().iter_mut().enumerate() {
        let bytes = saved(handle);
        if kind != 0 && kind != 8 {
            assert_eq!(bytes[16], kind as u8, "a code is the number of the saved form");
        }
        let mut loaded = empty();
        assert_eq!(vers_load(Global, kind as u32, &bytes, &mut loaded), DONE, "{kind}");
        assert_eq!(vers_load(Global, kind as u32, &bytes, &mut loaded), OCCUPIED);
        for (code, a, b) in (0..=CODES).flat_map(|code| (0..71).map(move |a| (code, a, a / 2 + 1))) {
            assert_eq!(ask(handle, code, a, b, 1), ask(&mut loaded, code, a, b, 1), "{kind}: {code} {a}");
        }
        assert_eq!(vers_change(Global, &mut loaded, 0, 1, 0), if kind == 0 { DONE } else { UNKNOWN });
        // the status of each fault of vers.h
        let mut wrong = bytes.clone();
        let last = wrong.len() - 1;
        wrong[last] ^= 1;
        refused(13, |it| vers_load(Global, kind as u32, &wrong, it));
        refused(8, |it| vers_load(Global, kind as u32, &bytes[..last], it));
        refused(8, |it| vers_load(Global, kind as u32, &[], it));
        wrong[0] ^= 1;
        refused(9, |it| vers_load(Global, kind as u32, &wrong, it));
        refused(11, |it| vers_load(Global, (kind as u32 + 2) % 11, &bytes, it));
        refused(UNKNOWN, |it| vers_load(Global, 11, &bytes, it));
    }
    // the row of the whole text, with the sum made right again
    let mut bytes = saved(&mut of_each_kind()[9]);
    bytes[56] ^= 1;
    let last = bytes.len() - 8;
    let words = bytes[..last].chunks(8).map(|it| u64::from_le_bytes(it.try_into().unwrap()));
    let sum = words.fold(START, |sum, word| (sum ^ word).wrapping_mul(FACTOR).rotate_left(TURN));
    bytes[last..].copy_from_slice(&sum.to_le_bytes());
    refused(16, |it| vers_load(Global, 9, &bytes, it));
    let mut handle = made(|it| vers_symbols_build(Global, &[], 0, it));
    assert_eq!(vers_saved_size(Global, &mut handle).status, ABSENT);
    assert_eq!(vers_save(Global, &mut handle, &mut [0; 40]), ABSENT);
}

#[test]
fn a_refused_request_leaves_handles_as_they_were() {
    let forms: Vec<Vec<u8>> = of_each_kind().iter_mut().map(saved).collect();
    for (kind, bytes) in forms.iter().enumerate() {
        for requests in 0.. {
            grant(requests);
            let mut loaded = empty();
            let status = vers_load(Global, kind as u32, bytes, &mut loaded);
            grant(usize::MAX);
            assert_eq!((status, loaded.is_built), if status == DONE { (DONE, true) } else { (NO_MEMORY, false) });
            if status == DONE {
                break;
            }
        }
    }
    let mut handle = made(|it| vers_growing_build(Global, &[5], 64, it));
    grant(0);
    assert_eq!(vers_clone(Global, &mut handle, &mut empty()), NO_MEMORY);
    assert_eq!(vers_change(Global, &mut handle, 0, 1, 0), NO_MEMORY);
    assert_eq!(vers_save(Global, &mut handle, &mut [0; 48]), NO_MEMORY);
    refused(NO_MEMORY, |it| vers_sorted_build(Global, &[1, 2], it));
    assert_eq!(ask(&mut handle, 0, 0, 0, 0), found(64));
    grant(usize::MAX);
    lower(MOST_BITS, 64);
    refused(NO_MEMORY, |it| vers_growing_build(Global, &[1, 2], 1, it));
    assert_eq!(vers_change(Global, &mut handle, 0, 1, 0), NO_MEMORY);
}
