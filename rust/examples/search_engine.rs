//! A search engine over documents: AND and OR of words by their postings, phrases by an index of the whole text.

use std::collections::{BTreeMap, BTreeSet};
use std::error::Error;
use vers_vecs::{postings::Postings, sets, text::TextIndex, EliasFanoVec, RsVec};

const DOCUMENTS: [&str; 4] = [
    "the library keeps a succinct index of a text",
    "an index of bits answers rank and select in constant time",
    "a wavelet matrix answers rank and select of symbols",
    "a text index finds the positions of a pattern in a text",
];

/// The number and the documents of each word, and all documents as one text of word numbers.
struct Engine {
    words: BTreeMap<&'static str, (u64, Postings)>,
    text: TextIndex,
    ends: RsVec,
}

impl Engine {
    fn new(documents: &[&'static str]) -> Result<Self, Box<dyn Error>> {
        let mut words = BTreeMap::new();
        for word in documents.iter().flat_map(|it| it.split(' ')) {
            let having = (0..).zip(documents).filter(|(_, text)| text.split(' ').any(|it| it == word));
            // The cost of a document is its length, so that `cheapest` returns the shortest one.
            let (found, costs): (Vec<u64>, Vec<u64>) = having.map(|(k, text)| (k, text.len() as u64)).unzip();
            let number = words.len() as u64 + 1;
            words.entry(word).or_insert((number, Postings::from_sorted(&found, &costs)?));
        }
        // A 0 separates documents, so that no phrase continues in the next one.
        let number = |word| words.get(word).map_or(0, |(number, _)| *number);
        let text: Vec<u64> = documents.join("  ").split(' ').map(number).collect();
        let ends = text.iter().map(|number| *number == 0).collect();
        Ok(Engine { text: TextIndex::from_slice(&text, 8)?, ends, words })
    }

    /// Returns the documents that contain one of two words at least.
    fn either(&self, one: &str, other: &str) -> EliasFanoVec {
        sets::union(&self.words[one].1.documents(), &self.words[other].1.documents())
    }

    /// Returns the documents in which some words follow one another.
    fn phrase(&self, words: &str) -> BTreeSet<u64> {
        let pattern: Vec<u64> = words.split(' ').map(|word| self.words[word].0).collect();
        self.text.places(&pattern).into_iter().map(|position| self.ends.rank1(position) as u64).collect()
    }
}

fn main() -> Result<(), Box<dyn Error>> {
    let engine = Engine::new(&DOCUMENTS)?;
    let has = |k: u64, words: &str| format!(" {} ", DOCUMENTS[k as usize]).contains(&format!(" {words} "));
    let both = engine.words["index"].1.intersect(&engine.words["text"].1);
    assert!((0..4).filter(|&it| has(it, "index") && has(it, "text")).eq(both));
    assert!((0..4).filter(|&it| has(it, "symbols") || has(it, "bits")).eq(engine.either("symbols", "bits").iter()));
    assert!((0..4).filter(|&it| has(it, "index of")).eq(engine.phrase("index of")));
    println!("\"index of\": {:?}", engine.phrase("index of"));
    println!("the shortest with a text: {:?}", engine.words["text"].1.cheapest(0, 3));
    Ok(())
}
