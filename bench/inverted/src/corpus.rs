//! The words of the files of a folder.

use std::collections::HashMap;
use std::io::Result;
use std::path::{Path, PathBuf};

/// The documents of a folder, and their words.
#[derive(Default)]
pub struct Corpus {
    /// The files without a byte 0, ascending.
    pub paths: Vec<PathBuf>,
    /// The sum of their sizes.
    pub bytes: u64,
    /// The words, ascending.
    pub words: Vec<String>,
    /// The documents of each word, ascending: positions in `paths`.
    pub lists: Vec<Vec<u32>>,
}

impl Corpus {
    /// Reads the files below a folder. Links are no files.
    pub fn read(folder: &Path) -> Result<Self> {
        let mut files = Vec::new();
        add_files(folder, &mut files)?;
        files.sort_unstable();
        let mut corpus = Corpus::default();
        let mut lists: HashMap<String, Vec<u32>> = HashMap::new();
        for path in files {
            let mut text = std::fs::read(&path)?;
            if text.contains(&0) {
                continue;
            }
            let document = corpus.paths.len() as u32;
            corpus.bytes += text.len() as u64;
            corpus.paths.push(path);
            text.make_ascii_lowercase();
            for word in text.split(|byte| !byte.is_ascii_lowercase()) {
                if !word.is_empty() {
                    add(&mut lists, word, document);
                }
            }
        }
        let mut lists: Vec<_> = lists.into_iter().collect();
        lists.sort_unstable();
        (corpus.words, corpus.lists) = lists.into_iter().unzip();
        Ok(corpus)
    }

    /// Returns the number of a word, or one that no word has if no document has it.
    pub fn number(&self, word: &str) -> u64 {
        let position = self.words.binary_search_by(|it| it.as_str().cmp(word));
        position.unwrap_or(self.words.len()) as u64
    }
}

/// Adds the files below a folder.
fn add_files(folder: &Path, files: &mut Vec<PathBuf>) -> Result<()> {
    for entry in std::fs::read_dir(folder)? {
        let entry = entry?;
        let kind = entry.file_type()?;
        if kind.is_dir() {
            add_files(&entry.path(), files)?;
        } else if kind.is_file() {
            files.push(entry.path());
        }
    }
    Ok(())
}

/// Adds the last document to the list of a word, unless the list ends with it.
fn add(lists: &mut HashMap<String, Vec<u32>>, word: &[u8], document: u32) {
    let word = std::str::from_utf8(word).expect("letters");
    match lists.get_mut(word) {
        Some(list) if list.last() == Some(&document) => {}
        Some(list) => list.push(document),
        None => {
            lists.insert(word.to_owned(), vec![document]);
        }
    }
}
