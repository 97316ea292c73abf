//! Writes a random journal: `generate KIND SEED RECORDS > file`.

use std::io::{self, Write};
use std::process::ExitCode;

use model::generator::{journal, Kind};

fn main() -> ExitCode {
    let arguments: Vec<String> = std::env::args().skip(1).collect();
    let Some((kind, seed, records)) = read(&arguments) else {
        let kinds = Kind::ALL.map(Kind::name).join("|");
        eprintln!("usage: generate {kinds} SEED RECORDS > file");
        return ExitCode::FAILURE;
    };
    match io::stdout().write_all(&journal(kind, seed, records)) {
        Ok(()) => ExitCode::SUCCESS,
        Err(error) => {
            eprintln!("generate: {error}");
            ExitCode::FAILURE
        }
    }
}

fn read(arguments: &[String]) -> Option<(Kind, u64, usize)> {
    let [kind, seed, records] = arguments else {
        return None;
    };
    Some((
        Kind::from_name(kind)?,
        seed.parse().ok()?,
        records.parse().ok()?,
    ))
}
