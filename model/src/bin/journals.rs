//! Writes what the gate runs the replay program on, and what it must print:
//! `journals DIRECTORY` writes `args`, `stdin`, `stdout` and the journals of
//! `data/` below the directory. Journals that are kept must lie there already.

use std::io;
use std::path::Path;
use std::process::ExitCode;

use model::journal::lines;
use model::stored::{Source, STORED};

fn main() -> ExitCode {
    let arguments: Vec<String> = std::env::args().skip(1).collect();
    let [directory] = arguments.as_slice() else {
        eprintln!("usage: journals DIRECTORY");
        return ExitCode::FAILURE;
    };
    match write(Path::new(directory)) {
        Ok(()) => ExitCode::SUCCESS,
        Err(error) => {
            eprintln!("journals: {error}");
            ExitCode::FAILURE
        }
    }
}

fn write(directory: &Path) -> io::Result<()> {
    let data = directory.join("data");
    std::fs::create_dir_all(&data)?;
    let (mut arguments, mut printed) = (String::new(), String::new());
    for (name, source) in STORED {
        arguments.extend([name, "\n"]);
        let file = match source {
            Source::Input(_) => directory.join("stdin"),
            Source::Absent => continue,
            _ => data.join(name),
        };
        if let Some(bytes) = source.bytes() {
            std::fs::write(&file, bytes)?;
        }
        printed.push_str(&lines(&std::fs::read(&file)?));
    }
    std::fs::write(directory.join("args"), arguments)?;
    std::fs::write(directory.join("stdout"), printed)
}
