//! Documents by `grep`.

use std::collections::HashSet;
use std::ffi::OsStr;
use std::io::{Result, Write};
use std::os::unix::ffi::OsStrExt;
use std::path::PathBuf;
use std::process::{Command, Stdio};

/// Returns the positions of the files that have all words, in any case: each word is searched in those that have the
/// words before it.
pub fn found(paths: &[PathBuf], words: &[&str]) -> Result<Vec<u32>> {
    let names = paths.iter().map(|it| it.as_os_str().as_bytes());
    let mut names: Vec<u8> = names.flat_map(|it| [it, b"\0"].concat()).collect();
    for word in words {
        names = files_with(names, word)?;
    }
    let names: HashSet<&OsStr> = names.split(|it| *it == 0).map(OsStr::from_bytes).collect();
    let has = |path: &PathBuf| names.contains(path.as_os_str());
    Ok((0..)
        .zip(paths)
        .filter(|it| has(it.1))
        .map(|it| it.0)
        .collect())
}

/// Returns those of some files that have a word. A byte 0 ends each name.
fn files_with(names: Vec<u8>, word: &str) -> Result<Vec<u8>> {
    let pattern = format!("(^|[^A-Za-z]){word}([^A-Za-z]|$)");
    let mut child = Command::new("xargs")
        .args(["-0", "-r", "grep", "-liZE", &pattern, "--"])
        .env("LC_ALL", "C")
        .stdin(Stdio::piped())
        .stdout(Stdio::piped())
        .spawn()?;
    let mut input = child.stdin.take().expect("a pipe");
    let writer = std::thread::spawn(move || input.write_all(&names));
    let output = child.wait_with_output()?;
    writer.join().expect("no panic")?;
    Ok(output.stdout)
}
