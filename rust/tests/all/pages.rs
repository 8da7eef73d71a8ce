//! The pages of calls, as their sources write them.
use std::fs;
use std::path::{Path, PathBuf};

/// The folders and files whose calls aren't public, or that a script writes.
const INSIDE: [&str; 4] = ["proved", "rattle", "inside_tests", "contracts.rs"];

/// Returns the sources of the public calls, with their paths.
fn sources(folder: &Path) -> Vec<(PathBuf, String)> {
    let entries = fs::read_dir(folder).unwrap().map(|entry| entry.unwrap().path());
    let public = entries.filter(|path| INSIDE.iter().all(|inside| !path.ends_with(inside)));
    public
        .flat_map(|path| match path.is_dir() {
            true => sources(&path),
            false => vec![(path.clone(), fs::read_to_string(&path).unwrap())],
        })
        .collect()
}

#[test]
fn each_page_says_what_a_call_does_above_its_contract() {
    let sources = sources(&Path::new(env!("CARGO_MANIFEST_DIR")).join("src"));
    let mut contracts = 0;
    for (path, text) in &sources {
        let lines: Vec<&str> = text.lines().map(str::trim).collect();
        for (before, line) in lines.iter().zip(&lines[1..]).filter(|pair| pair.1.contains("contract!(")) {
            if !line.starts_with("#[doc = ") {
                continue;
            }
            contracts += 1;
            // in a macro the prose may be that of its caller
            let is_prose = ["///", "#[doc = ", "$(#[$doc])*"].iter().any(|start| before.starts_with(start));
            assert!(is_prose, "{}: above {line} is {before}", path.display());
        }
    }
    assert!(contracts > 300, "{contracts} contracts");
}
