//! Instructions, counted by valgrind's callgrind: unlike times they are the
//! same in every run.

use std::fs;
use std::io;
use std::path::{Path, PathBuf};
use std::process::{Command, Stdio};

/// A directory for files of one measurement, removed with this value.
pub struct Directory(PathBuf);

impl Directory {
    pub fn new(name: &str) -> io::Result<Directory> {
        let path = std::env::temp_dir().join(format!("bench-{name}-{}", std::process::id()));
        fs::create_dir(&path)?;
        Ok(Directory(path))
    }

    pub fn path(&self) -> &Path {
        &self.0
    }
}

impl Drop for Directory {
    fn drop(&mut self) {
        if let Err(error) = fs::remove_dir_all(&self.0) {
            eprintln!("bench: {}: {error}", self.0.display());
        }
    }
}

/// callgrind with an output file, without the program.
fn callgrind(output: &Path) -> Command {
    let mut command = Command::new("valgrind");
    command.arg("--tool=callgrind");
    command.arg(format!("--callgrind-out-file={}", output.display()));
    command
}

/// The instructions of a whole run of a program.
pub fn of_program(program: &Path, arguments: &[&str], directory: &Path) -> io::Result<u64> {
    let output = callgrind(Path::new("/dev/null"))
        .arg(program)
        .args(arguments)
        .current_dir(directory)
        .stdout(Stdio::null())
        .output()?;
    let report = String::from_utf8_lossy(&output.stderr);
    report
        .lines()
        .find_map(|line| line.split_once("Collected : ")?.1.trim().parse().ok())
        .ok_or_else(|| io::Error::other(format!("callgrind counted nothing:\n{report}")))
}

/// Runs what is to be counted; `of_calls` counts from its entry to its return.
#[no_mangle]
#[inline(never)]
pub fn measured(run: &mut dyn FnMut()) {
    run();
}

/// The instructions of each call of `measured`, in order, in a run of this program.
pub fn of_calls(arguments: &[&str]) -> io::Result<Vec<u64>> {
    let directory = Directory::new("count")?;
    let output = directory.path().join("out");
    let done = callgrind(&output)
        .args(["--toggle-collect=measured", "--dump-after=measured"])
        .arg(std::env::current_exe()?)
        .args(arguments)
        .stdout(Stdio::null())
        .output()?;
    if !done.status.success() {
        let report = String::from_utf8_lossy(&done.stderr);
        return Err(io::Error::other(format!("callgrind failed:\n{report}")));
    }
    // Each call leaves a file of its own, numbered from 1.
    (1..)
        .map(|number| output.with_extension(number.to_string()))
        .take_while(|file| file.exists())
        .map(|file| total(&fs::read_to_string(file)?))
        .collect()
}

/// The instructions that one of callgrind's files tells of.
fn total(text: &str) -> io::Result<u64> {
    text.lines()
        .find_map(|line| line.strip_prefix("totals: ")?.trim().parse().ok())
        .ok_or_else(|| io::Error::other("a file of callgrind has no totals"))
}
