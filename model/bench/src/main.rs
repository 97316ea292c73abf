//! Measures the proved code beside the model's, prints the tables of
//! docs/BENCHMARK.md and writes its plot: `bench [--rounds N] [SECTION]...`,
//! from the root of the repository. `model/bench/run` builds everything first.

mod call;
mod calls;
mod counting;
mod descriptors;
mod growth;
mod journals;
mod markdown;
mod pages;
mod plot;
mod replay;
mod tables;

use std::io;
use std::process::ExitCode;

use calls::Section;
use replay::{print_lines, MODEL, MODEL_WITHOUT_TEST};

/// The word that makes this program run the calls of a section once each, to
/// have their instructions counted.
pub const COUNT: &str = "--count";

const USAGE: &str = "usage: bench [--rounds N] [replay|growth|calls|descriptors|damage|pages]...";

/// Rounds of each measurement, of which the best is printed.
const ROUNDS: u32 = 21;

/// Measures so many rounds and prints a section of the document.
type Measure = fn(u32) -> io::Result<()>;

/// The sections of the document, in its order.
const SECTIONS: [(&str, Measure); 6] = [
    ("replay", replay::measure),
    ("growth", growth::measure),
    ("calls", calls::measure),
    ("descriptors", calls::measure_descriptors),
    ("damage", calls::measure_damage_test),
    (pages::PAGES, pages::measure),
];

fn main() -> ExitCode {
    let arguments: Vec<String> = std::env::args().skip(1).collect();
    let words: Vec<&str> = arguments.iter().map(String::as_str).collect();
    let done = match words.as_slice() {
        [MODEL, file] => print_lines(file, model::journal::lines),
        [MODEL_WITHOUT_TEST, file] => print_lines(file, model::journal::lines_without_test),
        [COUNT, pages::PAGES] => {
            pages::count_once();
            Ok(())
        }
        [COUNT, section] => Section::from_name(section)
            .map(calls::count_once)
            .ok_or_else(usage),
        ["--rounds", rounds, sections @ ..] => match rounds.parse() {
            Ok(rounds @ 1..) => measure(rounds, sections),
            _ => Err(usage()),
        },
        sections => measure(ROUNDS, sections),
    };
    match done {
        Ok(()) => ExitCode::SUCCESS,
        Err(error) => {
            eprintln!("bench: {error}");
            ExitCode::FAILURE
        }
    }
}

fn usage() -> io::Error {
    io::Error::other(USAGE)
}

/// Measures the sections that are named, or all where none is.
fn measure(rounds: u32, names: &[&str]) -> io::Result<()> {
    let known = |name: &&str| SECTIONS.iter().any(|(section, _)| section == name);
    if !names.iter().all(known) {
        return Err(usage());
    }
    for (name, measure) in SECTIONS {
        if names.is_empty() || names.contains(&name) {
            measure(rounds)?;
        }
    }
    Ok(())
}
