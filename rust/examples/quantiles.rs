//! Medians of sliding windows: a wavelet matrix answers each window without sorting it, and is saved and loaded.

use std::error::Error;
use vers_vecs::saved::Saved;
use vers_vecs::WaveletMatrix;

const WINDOW: usize = 1000;

fn main() -> Result<(), Box<dyn Error>> {
    let samples: Vec<u64> = (0..100_000u64).map(|i| i * i % 1021 + i / 500).collect();
    let list = WaveletMatrix::try_from_slice(&samples, 11)?;
    let bytes = list.save()?;
    println!("{} samples take {} bytes, saved {}", list.len(), list.heap_size(), bytes.len());
    let list = WaveletMatrix::load(&bytes)?;
    let medians: Vec<u64> =
        (0..=list.len() - WINDOW).filter_map(|start| list.range_median_u64(start..start + WINDOW)).collect();
    for start in (0..medians.len()).step_by(997) {
        let mut window = samples[start..start + WINDOW].to_vec();
        window.sort_unstable();
        assert_eq!(medians[start], window[(WINDOW - 1) / 2]);
    }
    println!(
        "{} windows of {WINDOW}: medians from {:?} to {:?}",
        medians.len(),
        medians.iter().min(),
        medians.iter().max()
    );
    Ok(())
}
