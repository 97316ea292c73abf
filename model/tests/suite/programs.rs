//! The programs: what they print and how they fail.

use std::fs;
use std::io::Write;
use std::process::{Command, Output, Stdio};

use model::generator::{journal, Kind};
use model::journal::{lines, trace};
use model::stored::{Source, STORED};

use crate::journals::replay_file;

fn run(program: &str, arguments: &[&str], input: &[u8]) -> Output {
    let mut child = Command::new(program)
        .args(arguments)
        .stdin(Stdio::piped())
        .stdout(Stdio::piped())
        .stderr(Stdio::piped())
        .spawn()
        .expect("the program starts");
    let mut stdin = child.stdin.take().expect("a piped input");
    // A program that refuses its arguments may close its input first.
    let _ = stdin.write_all(input);
    drop(stdin);
    child.wait_with_output().expect("the program ends")
}

#[test]
fn trace_prints_traces_or_lines() {
    let program = env!("CARGO_BIN_EXE_trace");
    let files = ["data/mixed-1.journal", "data/mixed-2.journal"].map(replay_file);
    let [first, second] = files
        .each_ref()
        .map(|file| std::fs::read(file).expect("a readable journal"));
    let [first_name, second_name] = files
        .each_ref()
        .map(|file| file.to_str().expect("a plain path"));
    let output = run(program, &[], &first);
    assert!(output.status.success());
    assert_eq!(output.stdout, trace(&first).as_bytes());
    let output = run(program, &["--lines"], &first);
    assert_eq!(output.stdout, lines(&first).as_bytes());
    let output = run(program, &[first_name, second_name], &[]);
    assert_eq!(output.stdout, (trace(&first) + &trace(&second)).as_bytes());
    let output = run(program, &["--lines", second_name], &[]);
    assert_eq!(output.stdout, lines(&second).as_bytes());
    let output = run(program, &["no such file"], &[]);
    assert!(!output.status.success() && output.stdout.is_empty() && !output.stderr.is_empty());
}

#[test]
fn generate_writes_a_journal() {
    let program = env!("CARGO_BIN_EXE_generate");
    for kind in Kind::ALL {
        let output = run(program, &[kind.name(), "7", "40"], &[]);
        assert!(output.status.success());
        assert_eq!(output.stdout, journal(kind, 7, 40));
    }
    for arguments in [
        &[][..],
        &["mixed"],
        &["mixed", "x", "1"],
        &["other", "1", "1"],
        &["mixed", "1", "1", "1"],
    ] {
        let output = run(program, arguments, &[]);
        assert!(!output.status.success() && output.stdout.is_empty() && !output.stderr.is_empty());
    }
}

#[test]
fn journals_writes_what_is_stored() {
    let program = env!("CARGO_BIN_EXE_journals");
    let directory = std::env::temp_dir().join(format!("journals-{}", std::process::id()));
    let data = directory.join("data");
    fs::create_dir_all(&data).expect("a directory to write in");
    for name in STORED.iter().filter_map(|(name, source)| match source {
        Source::Kept => Some(name),
        _ => None,
    }) {
        fs::copy(replay_file("data").join(name), data.join(name)).expect("a kept journal");
    }
    let output = run(program, &[directory.to_str().expect("a plain path")], &[]);
    assert!(output.status.success());
    for name in ["args", "stdin", "stdout"] {
        let written = fs::read(directory.join(name)).expect("a file that was written");
        assert!(written == fs::read(replay_file(name)).expect("a stored file"));
    }
    fs::remove_dir_all(&directory).expect("a directory to remove");
    let output = run(program, &[], &[]);
    assert!(!output.status.success() && output.stdout.is_empty() && !output.stderr.is_empty());
}
