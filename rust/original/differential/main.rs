//! Compares this crate with the original call by call: `differential SEED ROUNDS DIFFERENCES`.

mod known;
mod log;

mod ours {
    use vers_vecs as subject;
    include!("calls.rs");
}

mod theirs {
    use original as subject;
    include!("calls.rs");
}

use log::{Log, Random};
use std::collections::{BTreeMap, BTreeSet};

type Round = fn(&mut Log, &mut Random);

/// The rounds of calls, for each side.
const ROUNDS: [(&str, Round, Round); 12] = [
    ("bit_vec_makers", ours::bit_vec_makers, theirs::bit_vec_makers),
    ("bit_vec_changes", ours::bit_vec_changes, theirs::bit_vec_changes),
    ("bit_vec", ours::bit_vec, theirs::bit_vec),
    ("rs_vec", ours::rs_vec, theirs::rs_vec),
    ("elias_fano", ours::elias_fano, theirs::elias_fano),
    ("sparse", ours::sparse, theirs::sparse),
    ("fast_rmq", ours::fast_rmq, theirs::fast_rmq),
    ("binary_rmq", ours::binary_rmq, theirs::binary_rmq),
    ("wavelet", ours::wavelet, theirs::wavelet),
    ("wide_wavelet", ours::wide_wavelet, theirs::wide_wavelet),
    ("bp_tree", ours::bp_tree, theirs::bp_tree),
    ("unbalanced", ours::unbalanced, theirs::unbalanced),
];

/// What was compared: how many calls of each name, how many differences of each known kind, and how many others.
#[derive(Default)]
struct Found {
    calls: BTreeMap<String, u64>,
    known: BTreeMap<&'static str, BTreeMap<String, u64>>,
    others: BTreeMap<String, u64>,
}

impl Found {
    /// Compares what both sides logged in a round.
    fn compare(&mut self, round: &str, seed: u64, ours: Log, theirs: Log) {
        for (k, call) in ours.calls.iter().enumerate() {
            let Some(other) = theirs.calls.get(k).filter(|it| it.name == call.name && it.arguments == call.arguments)
            else {
                *self.others.entry(format!("{round}: both sides made other calls after {k}")).or_default() += 1;
                return;
            };
            *self.calls.entry(call.name.clone()).or_default() += 1;
            if call.answer == other.answer {
                continue;
            }
            if let Some(difference) = known::named(call, &other.answer) {
                *self.known.entry(difference.sentence).or_default().entry(call.name.clone()).or_default() += 1;
                continue;
            }
            let times = self.others.entry(call.name.clone()).or_default();
            *times += 1;
            if *times <= 5 {
                let (name, arguments, len) = (&call.name, &call.arguments, call.len);
                println!("difference: {name} {arguments:?} of {len}, round {round} {seed}");
                println!("    ours {}\n    theirs {}", call.answer, other.answer);
            }
        }
    }
}

fn main() {
    let arguments: Vec<String> = std::env::args().collect();
    let (seed, rounds): (u64, u64) = (arguments[1].parse().unwrap(), arguments[2].parse().unwrap());
    let text = std::fs::read_to_string(&arguments[3]).unwrap();
    let sentences: BTreeSet<_> = known::KNOWN.iter().map(|it| it.sentence).collect();
    let unnamed: Vec<_> = sentences.into_iter().filter(|it| !text.contains(it)).collect();
    std::panic::set_hook(Box::new(|_| ()));
    let mut found = Found::default();
    for k in 0..rounds {
        for (n, (name, ours, theirs)) in ROUNDS.into_iter().enumerate() {
            let start = seed.wrapping_add(k * 1_000_003).wrapping_mul(31).wrapping_add(n as u64);
            let mut logs = [Log::default(), Log::default()];
            ours(&mut logs[0], &mut Random(start));
            theirs(&mut logs[1], &mut Random(start));
            let [one, other] = logs;
            found.compare(name, start, one, other);
        }
    }
    for (name, count) in &found.calls {
        println!("call {name} {count}");
    }
    for (sentence, names) in &found.known {
        let names: Vec<_> = names.iter().map(|(name, count)| format!("{name} {count}")).collect();
        println!("known, {sentence}: {}", names.join(", "));
    }
    unnamed.iter().for_each(|it| println!("docs/DIFFERENCES.md doesn't say: {it}"));
    for (what, times) in &found.others {
        println!("different {what} {times}");
    }
    println!(
        "{} calls compared, {} differences",
        found.calls.values().sum::<u64>(),
        found.others.values().sum::<u64>()
    );
    std::process::exit(i32::from(!found.others.is_empty() || !unnamed.is_empty()));
}
