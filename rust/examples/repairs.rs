//! Compares the proved repair with the model's on random damaged tables:
//! `repairs DUMPS [SEED]` repairs those of so many dumps and prints what it found.

#[path = "../tests/repair_comparison/mod.rs"]
mod repair_comparison;

use std::process::ExitCode;

use repair_comparison::RepairComparison;

fn main() -> ExitCode {
    let words: Option<Vec<u64>> = std::env::args().skip(1).map(|word| word.parse().ok()).collect();
    let (dumps, seed) = match words.as_deref() {
        Some(&[dumps]) => (dumps, 0),
        Some(&[dumps, seed]) => (dumps, seed),
        _ => {
            eprintln!("usage: repairs DUMPS [SEED]");
            return ExitCode::FAILURE;
        }
    };
    let mut all = RepairComparison::new(seed);
    let mut found = Ok(());
    while found.is_ok() && all.dumps < dumps {
        found = all.round();
    }
    let [sound, mended @ ..] = all.repaired;
    let [mended, refused] = [&mended[..], &all.refused].map(|counts| counts.iter().sum::<u64>());
    let repairs = sound + mended + refused;
    println!("{repairs} repairs of {} dumps from seed {seed}", all.dumps);
    println!("{sound} sound, {mended} mended, {refused} refused");
    for (rule, (mended, refused)) in all.repaired.iter().zip(all.refused).enumerate().skip(1) {
        println!("first broken rule {rule}: {mended} mended, {refused} refused");
    }
    let (lost, left_over) = (all.lost, all.left_over);
    println!("{} places emptied: {lost} live, {left_over} null", lost + left_over);
    for (sort, count) in &all.sorts {
        println!("damage {sort:?}: {count}");
    }
    match found {
        Ok(()) => {
            println!("no difference");
            ExitCode::SUCCESS
        }
        Err(difference) => {
            println!("a difference: {difference}");
            ExitCode::FAILURE
        }
    }
}
