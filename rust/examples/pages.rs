//! Compares the proved functions of the information page with the model on random
//! pages: `pages PAGES [SEED]` reads at least so many, writes others, and prints what it
//! found.

#[path = "../tests/page_comparison/mod.rs"]
mod page_comparison;

use std::process::ExitCode;

use page_comparison::PageComparison;

fn main() -> ExitCode {
    let words: Option<Vec<u64>> = std::env::args().skip(1).map(|word| word.parse().ok()).collect();
    let (pages, seed) = match words.as_deref() {
        Some(&[pages]) => (pages, 0),
        Some(&[pages, seed]) => (pages, seed),
        _ => {
            eprintln!("usage: pages PAGES [SEED]");
            return ExitCode::FAILURE;
        }
    };
    let mut all = PageComparison::new(seed);
    let mut found = Ok(());
    while found.is_ok() && all.pages() < pages {
        found = all.round();
    }
    let written: u64 = all.written.values().sum();
    println!("{} pages read and {written} written or refused from seed {seed}", all.pages());
    for (refusal, count) in &all.read {
        println!("read, refusal {refusal}: {count}");
    }
    for (refusal, count) in &all.written {
        println!("written, refusal {refusal}: {count}");
    }
    let [short, exact, longer] = all.buffers;
    println!("buffers: {short} too short, {exact} exact, {longer} longer");
    for (sort, name) in ["CPU", "memory"].iter().enumerate() {
        let (found, missing) = (all.found[sort], all.missing[sort]);
        println!("{name} descriptors: {found} found, {missing} not there");
    }
    match found {
        Ok(()) => {
            println!("no difference");
            ExitCode::SUCCESS
        }
        Err(difference) => {
            println!("a difference: {difference}");
            ExitCode::FAILURE
        }
    }
}
