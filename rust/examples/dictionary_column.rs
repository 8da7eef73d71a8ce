//! A column of a table by dictionary codes: counts of a value in any range of rows, its rows, and the next value.

use std::collections::BTreeSet;
use std::ops::Range;
use vers_vecs::WaveletMatrix;

const CITIES: [&str; 6] = ["Basel", "Bern", "Chur", "Genf", "Lugano", "Zug"];

/// Values as codes in alphabetical order, of as few bits as possible.
struct Column<'a> {
    names: Vec<&'a str>,
    rows: WaveletMatrix,
}

impl<'a> Column<'a> {
    fn new(values: &[&'a str]) -> Self {
        let names: Vec<&str> = values.iter().copied().collect::<BTreeSet<_>>().into_iter().collect();
        let codes: Vec<u64> = values.iter().map(|it| names.partition_point(|name| name < it) as u64).collect();
        let width = (usize::BITS - (names.len() - 1).leading_zeros()).max(1);
        Column { rows: WaveletMatrix::from_slice(&codes, width as u16), names }
    }

    fn code(&self, name: &str) -> u64 {
        self.names.partition_point(|it| *it < name) as u64
    }

    /// Returns how many rows of a range have a value.
    fn count(&self, rows: Range<usize>, name: &str) -> usize {
        self.rows.rank_range_u64(rows, self.code(name)).unwrap_or(0)
    }

    /// Returns the row with occurrence `number` of a value.
    fn row(&self, name: &str, number: usize) -> Option<usize> {
        self.rows.select_u64(number, self.code(name))
    }

    /// Returns the least value of a range that is at or after a name.
    fn next_value(&self, rows: Range<usize>, name: &str) -> Option<&'a str> {
        Some(self.names[self.rows.successor_u64(rows, self.code(name))? as usize])
    }
}

fn main() {
    let values: Vec<&str> = (0..10_000usize).map(|i| CITIES[i * i % 7 % 6]).collect();
    let column = Column::new(&values);
    for rows in [0..10_000, 100..200, 5000..5001] {
        for name in &column.names {
            let plain = values[rows.clone()].iter().filter(|it| *it == name).count();
            assert_eq!(column.count(rows.clone(), name), plain);
        }
    }
    println!("rows 100 to 200 with Bern: {}", column.count(100..200, "Bern"));
    println!("Bern for the 100th time: row {:?}", column.row("Bern", 99));
    println!("at or after C in rows 0 to 10: {:?}", column.next_value(0..10, "C"));
}
