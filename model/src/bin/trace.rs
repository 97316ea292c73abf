//! Replays journals, from files or from standard input, and prints the trace
//! of each; with `--lines` only the lines that the replay program prints.

use std::io::{self, Read, Write};
use std::process::ExitCode;

use model::journal;

fn main() -> ExitCode {
    match run() {
        Ok(()) => ExitCode::SUCCESS,
        Err(error) => {
            eprintln!("trace: {error}");
            ExitCode::FAILURE
        }
    }
}

fn run() -> io::Result<()> {
    let (options, files): (Vec<String>, Vec<String>) = std::env::args()
        .skip(1)
        .partition(|argument| argument == "--lines");
    let print = if options.is_empty() {
        journal::trace
    } else {
        journal::lines
    };
    let mut out = io::stdout().lock();
    if files.is_empty() {
        let mut bytes = Vec::new();
        io::stdin().read_to_end(&mut bytes)?;
        return out.write_all(print(&bytes).as_bytes());
    }
    for file in files {
        let bytes = std::fs::read(&file)
            .map_err(|error| io::Error::new(error.kind(), format!("{file}: {error}")))?;
        out.write_all(print(&bytes).as_bytes())?;
    }
    Ok(())
}
