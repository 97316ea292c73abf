//! Journals with the traces that they must give, byte for byte. The journals
//! are those of the replay program's run; tests/vectors has their traces.

use std::fs;
use std::path::Path;

use model::journal;

use crate::journals::replay_file;

/// Each trace's name, its journal and itself.
fn vectors() -> Vec<(String, Vec<u8>, String)> {
    let directory = Path::new(env!("CARGO_MANIFEST_DIR")).join("tests/vectors");
    let files = fs::read_dir(directory).expect("the traces are part of the crate");
    files
        .map(|entry| entry.expect("a readable directory").path())
        .filter(|path| path.extension().is_some_and(|ending| ending == "trace"))
        .map(|path| {
            let name = path.file_stem().and_then(|name| name.to_str());
            let name = name.expect("a plain name").to_string();
            let journal = fs::read(replay_file(&format!("data/{name}.journal")));
            let trace = fs::read_to_string(&path).expect("a readable trace");
            (name, journal.expect("a readable journal"), trace)
        })
        .collect()
}

#[test]
fn every_trace_is_met() {
    let vectors = vectors();
    assert_eq!(vectors.len(), 6);
    for (name, bytes, expected) in vectors {
        assert!(expected.lines().count() > 200, "{name} is a real trace");
        assert_eq!(journal::trace(&bytes), expected, "{name}");
    }
}

#[test]
fn the_lines_are_the_trace_without_hashes() {
    for (name, bytes, trace) in vectors() {
        let expected: String = trace
            .lines()
            .filter(|line| !line.starts_with("places "))
            .flat_map(|line| [line, "\n"])
            .collect();
        assert_eq!(journal::lines(&bytes), expected, "{name}");
    }
}
