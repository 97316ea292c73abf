//! Compares the proved functions with the model on random calls:
//! `compare CALLS [SEED]` runs at least so many hypercalls and prints how many
//! calls it made and what it found.

#[path = "../tests/comparison/mod.rs"]
mod comparison;

use std::process::ExitCode;

use comparison::Comparison;

fn main() -> ExitCode {
    let words: Option<Vec<u64>> = std::env::args().skip(1).map(|word| word.parse().ok()).collect();
    let (calls, seed) = match words.as_deref() {
        Some(&[calls]) => (calls, 0),
        Some(&[calls, seed]) => (calls, seed),
        _ => {
            eprintln!("usage: compare CALLS [SEED]");
            return ExitCode::FAILURE;
        }
    };
    let mut all = Comparison::new(seed);
    let mut found = Ok(());
    while found.is_ok() && all.hypercalls < calls {
        found = all.round(2_000);
    }
    println!(
        "{} hypercalls, {} censuses, {} damage reports, {} untyped parts and {} boots from seed {seed}",
        all.hypercalls,
        all.censuses,
        all.rules.iter().sum::<u64>(),
        all.parts,
        all.boots
    );
    for ((number, status), count) in &all.statuses {
        let number = number.map_or("not built".to_string(), |number| number.to_string());
        println!("hypercall {number}, status {status}: {count}");
    }
    for (status, count) in &all.census_statuses {
        println!("census, status {status}: {count}");
    }
    for (rule, count) in all.rules.iter().enumerate() {
        println!("damage, rule {rule}: {count}");
    }
    match found {
        Ok(()) => {
            println!("no difference");
            ExitCode::SUCCESS
        }
        Err(difference) => {
            println!("a difference: {difference}");
            ExitCode::FAILURE
        }
    }
}
