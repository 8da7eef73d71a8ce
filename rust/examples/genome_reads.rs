//! Reads against a genome: the positions of each read on both strands, in the sequences of a FASTA file.

use std::{env, error::Error, fs, iter, process};
use vers_vecs::text::TextIndex;
use vers_vecs::EliasFanoVec;

/// Sequences as one text: bases from 1 to 4, 5 for any other letter, and a 0 after each sequence.
struct Genome {
    text: TextIndex,
    starts: EliasFanoVec,
}

fn code(letter: char) -> u64 {
    "ACGT".find(letter.to_ascii_uppercase()).map_or(5, |base| base as u64 + 1)
}

impl Genome {
    /// Indexes a text in FASTA.
    fn new(fasta: &str) -> Result<Self, Box<dyn Error>> {
        let (mut text, mut starts) = (Vec::new(), Vec::new());
        for record in fasta.split('>').skip(1) {
            starts.push(text.len() as u64);
            text.extend(record.lines().skip(1).flat_map(str::chars).map(code).chain([0]));
        }
        Ok(Genome { text: TextIndex::from_slice(&text, 3)?, starts: EliasFanoVec::try_from_slice(&starts)? })
    }

    /// Returns the sequence and the position in it of each occurrence of a read, then of its reverse complement.
    fn hits(&self, read: &str) -> Vec<(usize, usize)> {
        let forward: Vec<u64> = read.chars().map(code).collect();
        let backward = forward.iter().rev().map(|&base| if base < 5 { 5 - base } else { 5 }).collect();
        let positions = [forward, backward].into_iter().flat_map(|strand| self.text.places(&strand));
        let starts = positions.filter_map(|position| Some((position, self.starts.predecessor(position as u64)?)));
        starts.map(|(position, start)| (self.starts.rank(start) as usize, position - start as usize)).collect()
    }
}

/// Returns the same hits by a search at each position.
fn plain_hits(sequences: [&str; 2], read: &str) -> Vec<(usize, usize)> {
    let complement = |base| ["AT", "CG", "GC", "TA", "NN"].into_iter().find_map(|pair| pair.strip_prefix(base));
    let strands = [read.to_string(), read.chars().rev().filter_map(complement).collect()];
    let all: Vec<_> = (0..2).flat_map(|k| (0..sequences[k].len()).map(move |position| (k, position))).collect();
    let found = |strand| all.iter().filter(move |(k, position)| sequences[*k][*position..].starts_with::<&str>(strand));
    strands.iter().flat_map(|strand| found(strand).copied()).collect()
}

fn main() -> Result<(), Box<dyn Error>> {
    let random = iter::successors(Some(7u64), |it| Some(it.wrapping_mul(6364136223846793005).wrapping_add(1)));
    let bases: String = random.map(|it| char::from(b"ACGTACGTACGTACGN"[(it >> 60) as usize])).take(3000).collect();
    let (one, two) = bases.split_at(1800);
    let path = env::temp_dir().join(format!("genome_reads_{}.fa", process::id()));
    fs::write(&path, format!(">one\n{}\n{}\n>two\n{}\n", &one[..999], &one[999..], two.to_lowercase()))?;
    let genome = Genome::new(&fs::read_to_string(&path)?)?;
    fs::remove_file(path)?;
    for read in (0..100).map(|k| &bases[30 * k..30 * k + 4 + k % 9]) {
        assert_eq!(genome.hits(read), plain_hits([one, two], read));
    }
    println!("TATA occurs {} times on both strands of {} bases", genome.hits("TATA").len(), bases.len());
    Ok(())
}
