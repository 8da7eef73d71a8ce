//! Asks one query of positions that look random: the query's name, and how many positions. Prints the sum of the answers.
//!
//! Under `valgrind --tool=callgrind` the instructions of a query are those of a run with many positions less those of a
//! run with none, over the count; `none` asks nothing, and its instructions for a position are the loop's.

use vers_vecs::{BitVec, EliasFanoVec, FastRmq, RsVec, WaveletMatrix};

const ITEMS: usize = 1_000_000;

struct Random(u64);

impl Random {
    fn next(&mut self) -> u64 {
        self.0 ^= self.0 << 13;
        self.0 ^= self.0 >> 7;
        self.0 ^= self.0 << 17;
        self.0
    }
}

fn main() {
    let mut arguments = std::env::args().skip(1);
    let name = arguments.next().expect("a query and a count");
    let count: usize = arguments.next().and_then(|count| count.parse().ok()).expect("a count");
    let mut random = Random(88172645463325252);
    let words: Vec<u64> = (0..ITEMS / 64 + 1).map(|_| random.next()).collect();
    let numbers: Vec<u64> = (0..ITEMS).map(|_| random.next()).collect();
    let mut asked = |most: u64, query: &dyn Fn(&[u64]) -> u64| {
        let positions: Vec<u64> = (0..count).map(|_| random.next() % most).collect();
        println!("{}", query(hidden(&positions)));
    };
    // Each loop is one function, so that no call of a query goes by a table.
    match name.as_str() {
        "get" | "rank1" | "select1" => {
            let mut bits = BitVec::from_vec(words);
            bits.drop_last(64 - ITEMS % 64);
            let bits = RsVec::from_bit_vec(bits);
            let ones = (ITEMS / 2 - 2000) as u64;
            match name.as_str() {
                "get" => asked(ITEMS as u64, &|positions| sum(positions, |position| bits.get(position).unwrap_or(0))),
                "rank1" => asked(ITEMS as u64, &|positions| sum(positions, |position| bits.rank1(position) as u64)),
                _ => asked(ones, &|positions| sum(positions, |position| bits.select1(position) as u64)),
            }
        }
        "predecessor" => {
            let elements: Vec<u64> = numbers.iter().scan(0, |last, number| Some(add(last, number % 100))).collect();
            let list = EliasFanoVec::from_slice(&elements);
            asked(elements[ITEMS - 1], &|positions| sum(positions, |n| list.predecessor(n as u64).unwrap_or(0)));
        }
        "symbol" | "quantile" => {
            let symbols = WaveletMatrix::from_slice(&numbers, 8);
            match name.as_str() {
                "symbol" => {
                    asked(ITEMS as u64, &|positions| sum(positions, |position| symbols.get_u64(position).unwrap_or(0)))
                }
                _ => asked(ITEMS as u64 / 2, &|positions| {
                    sum(positions, |position| symbols.quantile_u64(position..ITEMS, 100_000).unwrap_or(0))
                }),
            }
        }
        "least" => {
            let values = FastRmq::from_vec(numbers);
            asked(ITEMS as u64, &|positions| sum(positions, |position| values.range_min(position, ITEMS - 1) as u64));
        }
        _ => asked(ITEMS as u64, &|positions| sum(positions, |position| position as u64)),
    }
}

fn sum(positions: &[u64], query: impl Fn(usize) -> u64) -> u64 {
    positions.iter().fold(0, |sum, &position| sum.wrapping_add(query(position as usize)))
}

fn add(last: &mut u64, number: u64) -> u64 {
    *last += number;
    *last
}

/// Returns what it is given, so that the compiler doesn't see through.
#[inline(never)]
fn hidden(positions: &[u64]) -> &[u64] {
    positions
}
