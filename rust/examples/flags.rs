//! Reads lines from standard input and answers which of them are longer than 80 characters: how many before a line, and
//! where.
//!
//! ```sh
//! cargo run --example flags < Cargo.toml
//! ```

use std::io::{self, BufRead};
use vers_vecs::RsVec;

fn main() -> io::Result<()> {
    let lines: Vec<String> = io::stdin().lock().lines().collect::<Result<_, _>>()?;
    let long: RsVec = lines.iter().map(|line| line.chars().count() > 80).collect();
    let half = long.len() / 2;
    println!("{} of {} lines are longer than 80 characters", long.ones(), long.len());
    println!("{} of them are among the first {half} lines", long.rank1(half));
    for line in long.iter1().take(5) {
        println!("line {}: {}..", line + 1, lines[line].chars().take(40).collect::<String>());
    }
    Ok(())
}
