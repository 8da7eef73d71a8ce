//! Measures the structures of the crate vers-vecs over the workload of `crates/vers_bench`, and prints the same lines.
//!
//! Without arguments it prints the checksums of a small workload. With arguments it prints times: the name of the
//! driver in the lines, then the structures to run (none: all), and the options `--small` (a sixteenth of the sizes),
//! `--reps N` (how often each series is run, 5 by default) and `--size N` (one size of structures instead of the usual
//! ones, as bits, members, symbols, items or nodes).
//!
//! The feature `own` adds the series that `WordRank` and `WaveletTree` answer, which vers-vecs lacks: their lines begin
//! with the name of the driver and of the type.

mod batches;
mod bits;
mod clock;
mod minima;
mod report;
mod sorted;
mod symbols;
mod trees;
mod workload;

use report::Settings;
use std::process::ExitCode;
use trees::Shape;

fn run(settings: &Settings) {
    let query_count = settings.scaled(1_000_000);
    let limb_counts: Vec<usize> = settings.sizes(1 << 20, 1 << 26).iter().map(|bits| bits / 64).collect();
    for &limb_count in limb_counts.iter().filter(|_| settings.wants("bits")) {
        for &percent in settings.kinds(&[50, 5]) {
            bits::run(settings, limb_count, percent, query_count);
            #[cfg(feature = "own")]
            bits::run_word_rank(&settings.of_type("WordRank"), limb_count, percent, query_count);
        }
    }
    for &limb_count in limb_counts.iter().filter(|_| settings.wants("walks")) {
        bits::run_walks(settings, limb_count, 50);
        bits::run_walks(settings, limb_count, 5);
    }
    for &limb_count in limb_counts.iter().filter(|_| settings.wants("list")) {
        bits::run_lists(settings, limb_count, query_count);
    }
    if settings.wants("sorted") {
        sorted::run(settings, settings.size_or(1_000_000), query_count, settings.scaled(2_000));
    }
    if settings.wants("sparse") {
        for &percent in settings.kinds(&[5, 1]) {
            sorted::run_sparse(settings, settings.size_or(1 << 20) / 64, percent, query_count);
        }
    }
    if settings.wants("wavelet") {
        for &width in settings.kinds(&[8, 32]) {
            symbols::run(settings, settings.size_or(1_000_000), width, settings.scaled(200_000));
            #[cfg(feature = "own")]
            if width == 8 {
                let tree = settings.of_type("WaveletTree");
                symbols::run_wavelet_tree(&tree, settings.size_or(1_000_000), width, settings.scaled(200_000));
            }
        }
    }
    if settings.wants("rmq") {
        for n in settings.sizes(1_000_000, 10_000_000) {
            minima::run(settings, n, query_count);
        }
    }
    if settings.wants("tree") {
        let nodes = settings.size_or(1_000_000);
        for &shape in settings.kinds(&[Shape::Random, Shape::Path, Shape::Star]) {
            trees::run(settings, shape, nodes, query_count);
        }
    }
    if settings.wants("batches") {
        batches::run(settings);
    }
}

fn main() -> ExitCode {
    match Settings::from_words(std::env::args().skip(1)) {
        Ok(settings) => {
            run(&settings);
            ExitCode::SUCCESS
        }
        Err(message) => {
            eprintln!("bench_original: {message}");
            ExitCode::FAILURE
        }
    }
}
