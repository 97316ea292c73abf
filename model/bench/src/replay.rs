//! The proved replay program beside the model's replay, with the damage test
//! before each call and without. All run as programs that read a file and
//! print to nowhere; for the model this program runs itself.

use std::fs;
use std::io::{self, Write};
use std::path::{Path, PathBuf};
use std::process::{Command, Stdio};
use std::time::{Duration, Instant};

use model::generator::{journal, Kind};

use crate::counting::{of_program, Directory};
use crate::journals::steady;
use crate::markdown::{grouped, line, ratio, short, table};

/// The words that make this program replay a file with the model.
pub const MODEL: &str = "--model";
pub const MODEL_WITHOUT_TEST: &str = "--model-without-test";

/// The proved program, from the root of the repository.
const PROVED: &str = "crates/replay/out/replay";

/// The journal's name in the directory where the programs run.
const JOURNAL: &str = "journal";

const RECORDS: usize = 50_000;

/// Prints the lines of a journal.
pub fn print_lines(file: &str, lines: fn(&[u8]) -> String) -> io::Result<()> {
    io::stdout().write_all(lines(&fs::read(file)?).as_bytes())
}

/// One side of the comparison: a program and its arguments.
struct Side {
    program: PathBuf,
    arguments: Vec<&'static str>,
    best: Duration,
}

impl Side {
    fn new(program: PathBuf, arguments: Vec<&'static str>) -> Side {
        let best = Duration::MAX;
        Side {
            program,
            arguments,
            best,
        }
    }

    fn command(&self, directory: &Path) -> Command {
        let mut command = Command::new(&self.program);
        command.args(&self.arguments).current_dir(directory);
        command
    }

    fn time(&mut self, directory: &Path) -> io::Result<()> {
        let start = Instant::now();
        self.command(directory).stdout(Stdio::null()).status()?;
        self.best = self.best.min(start.elapsed());
        Ok(())
    }
}

/// What one journal took: by the model, by the model without its test, by the proved program.
pub struct Replayed {
    name: String,
    pub records: usize,
    bytes: usize,
    milliseconds: [f64; 3],
    pub instructions: [u64; 3],
}

/// Replays a journal of so many records by all three, which must print the same lines.
pub fn replayed(name: String, records: usize, bytes: &[u8], rounds: u32) -> io::Result<Replayed> {
    eprintln!("replay: {name}");
    let directory = Directory::new("replay")?;
    let directory = directory.path();
    fs::write(directory.join(JOURNAL), bytes)?;
    let this = std::env::current_exe()?;
    let proved = Path::new(PROVED)
        .canonicalize()
        .map_err(|error| io::Error::other(format!("{PROVED}: {error}")))?;
    let mut sides = [
        Side::new(this.clone(), vec![MODEL, JOURNAL]),
        Side::new(this, vec![MODEL_WITHOUT_TEST, JOURNAL]),
        Side::new(proved, vec![JOURNAL]),
    ];
    let expected = sides[0].command(directory).output()?.stdout;
    for side in &sides[1..] {
        if side.command(directory).output()?.stdout != expected {
            return Err(io::Error::other("the programs print different lines"));
        }
    }
    for _ in 0..rounds {
        for side in &mut sides {
            side.time(directory)?;
        }
    }
    let mut instructions = [0; 3];
    for (count, side) in instructions.iter_mut().zip(&sides) {
        *count = of_program(&side.program, &side.arguments, directory)?;
    }
    Ok(Replayed {
        name,
        records,
        bytes: bytes.len(),
        milliseconds: sides.map(|side| side.best.as_secs_f64() * 1e3),
        instructions,
    })
}

/// Prints the times, then the instructions.
pub fn print(first: &str, all: &[Replayed]) {
    let head = [
        first,
        "bytes",
        "model, ms",
        "model without test, ms",
        "proved, ms",
        "proved / model",
        "proved / model without test",
    ];
    let figures = |figures: [f64; 3]| {
        let [model, without, proved] = figures;
        let ratios = [ratio(proved, model), ratio(proved, without)];
        figures.map(short).into_iter().chain(ratios)
    };
    let row = |one: &Replayed| {
        let first = [one.name.clone(), grouped(one.bytes as u64)];
        first.into_iter().chain(figures(one.milliseconds)).collect()
    };
    line("Times:");
    table(&head, &all.iter().map(row).collect::<Vec<_>>());
    line("Millions of instructions:");
    let head = [
        first,
        "model",
        "model without test",
        "proved",
        "proved / model",
        "proved / model without test",
    ];
    let row = |one: &Replayed| {
        let millions = one.instructions.map(|count| count as f64 / 1e6);
        [one.name.clone()]
            .into_iter()
            .chain(figures(millions))
            .collect()
    };
    table(&head, &all.iter().map(row).collect::<Vec<_>>());
}

/// Measures and prints the section of the document.
pub fn measure(rounds: u32) -> io::Result<()> {
    line("## Replay");
    let random = |kind: Kind| (kind.name(), journal(kind, 1, RECORDS));
    let journals = [
        random(Kind::Mixed),
        random(Kind::Deep),
        random(Kind::Full),
        ("steady", steady(RECORDS)),
    ];
    let all = journals.map(|(name, bytes)| replayed(name.to_string(), RECORDS, &bytes, rounds));
    print("journal", &all.into_iter().collect::<io::Result<Vec<_>>>()?);
    Ok(())
}
