//! The proved repair against the model's: random damaged tables from fixed seeds, and
//! tables at the bounds. `examples/repairs.rs` goes on with random tables for as long as
//! is wanted.

mod repair_comparison;

use model::dump_generator::Sort;
use model::layout::{DEPTH_LIMIT, DOMAIN_PLACES, SPACE_START};
use model::tables::Space;
use repair_comparison::{Difference, RepairComparison, Words};
use rudozhev::words::{OBJECT_WORDS, PLACE_WIDTH, PLACE_WORDS};

#[test]
fn random_dumps_agree() -> Result<(), Difference> {
    const DUMPS: u64 = 500;
    let mut all = RepairComparison::new(1);
    for _ in 0..DUMPS {
        all.round()?;
    }
    assert_eq!(all.dumps, DUMPS);
    for sort in Sort::ALL {
        assert!(all.sorts.contains_key(&sort), "{sort:?}");
    }
    let [sound, of_lengths, mended @ ..] = all.repaired;
    assert!(sound > 20 && of_lengths == 0, "{sound} sound");
    assert!(mended.iter().sum::<u64>() > 150, "mended: {mended:?}");
    // Of what can be mended rule 2 is broken by a null place of domain 0 alone.
    for rule in [2, 10, 11, 12] {
        assert!(all.repaired[rule] > 3, "rule {rule} was mended {} times", all.repaired[rule]);
    }
    for rule in 1..=9 {
        assert!(all.refused[rule] > 8, "rule {rule} was refused {} times", all.refused[rule]);
    }
    assert_eq!(all.refused[0], 0);
    assert!(all.lost > 2_000 && all.left_over > 20, "{} and {}", all.lost, all.left_over);
    Ok(())
}

#[test]
fn tables_of_other_lengths_are_refused() -> Result<(), Difference> {
    let mut all = RepairComparison::new(2);
    let mut broken = all.booted.clone();
    put(&mut broken, 392, [5, 0, 0, 0]);
    for tables in [all.booted.clone(), broken] {
        for (place_words, object_words) in [
            (PLACE_WORDS - 1, OBJECT_WORDS),
            (PLACE_WORDS - PLACE_WIDTH, OBJECT_WORDS),
            (PLACE_WORDS + 1, OBJECT_WORDS),
            (PLACE_WORDS + PLACE_WIDTH, OBJECT_WORDS),
            (2 * PLACE_WORDS, OBJECT_WORDS),
            (0, OBJECT_WORDS),
            (PLACE_WORDS, OBJECT_WORDS - 1),
            (PLACE_WORDS, OBJECT_WORDS + 1),
            (PLACE_WORDS, 2 * OBJECT_WORDS),
            (PLACE_WORDS, 0),
            (OBJECT_WORDS, PLACE_WORDS),
            (0, 0),
        ] {
            let mut resized = tables.clone();
            resized.places.resize(place_words, 0);
            resized.objects.resize(object_words, 0);
            assert_eq!(all.repair(&resized)?, None, "{place_words} and {object_words} words");
        }
        assert_eq!(all.repair(&tables)?, Some(0));
    }
    assert_eq!(all.refused[1], 24);
    Ok(())
}

#[test]
fn every_word_of_the_hypervisor_the_root_and_the_records_agrees() -> Result<(), Difference> {
    let mut all = RepairComparison::new(3);
    let booted = all.booted.clone();
    let places = 2 * DOMAIN_PLACES as usize * PLACE_WIDTH;
    for word in 0..places + OBJECT_WORDS {
        let mut tables = booted.clone();
        let at = match word.checked_sub(places) {
            None => &mut tables.places[word],
            Some(word) => &mut tables.objects[word],
        };
        *at ^= 1 << (word % 7);
        all.repair(&tables)?;
    }
    // A word alone that is left in one of the 379 null places of the root breaks rule 10.
    assert_eq!(all.repaired[10], 3 * 379);
    Ok(())
}

/// Writes the words of a place.
fn put(tables: &mut Words, place: u32, words: [u32; PLACE_WIDTH]) {
    let start = place as usize * PLACE_WIDTH;
    tables.places[start..start + PLACE_WIDTH].copy_from_slice(&words);
}

/// Boot's tables with a line of one resource through places of the root, from one at the
/// given depth on.
fn line(all: &RepairComparison, space: Space, places: &[u32], depth: u32) -> Words {
    let mut tables = all.booted.clone();
    let (resource, permissions) = match space {
        Space::Memory => (5, 7),
        Space::Io => (5, 1),
        Space::Object => (4, 3),
    };
    let mut parent = SPACE_START[space as usize] + resource;
    for (&place, depth) in places.iter().zip(depth..) {
        put(&mut tables, place, [resource, permissions, parent + 1, depth]);
        parent = place;
    }
    tables
}

#[test]
fn lines_and_cycles_of_every_length_agree() -> Result<(), Difference> {
    let mut all = RepairComparison::new(4);
    for space in Space::ALL {
        // Memory and I/O have two selectors fewer here, where boot lends the root its pages.
        let longest = space.selectors().min(DEPTH_LIMIT + 7) - 2;
        let first = DOMAIN_PLACES + SPACE_START[space as usize];
        // Object selectors 32 to 34 are the root's own.
        let first = if space == Space::Object { first + 64 } else { first };
        let rising: Vec<u32> = (first..first + longest).collect();
        let falling: Vec<u32> = rising.iter().rev().copied().collect();
        for places in [rising, falling] {
            for length in 1..=longest {
                let places = &places[..length as usize];
                let sound = line(&all, space, places, 1);
                let too_deep = length.saturating_sub(DEPTH_LIMIT);
                assert_eq!(all.repair(&sound)?, Some(too_deep), "{space:?}, {length} places");

                // The first place from the last, and all that keep their depths.
                let mut cycle = sound.clone();
                let start = places[0] as usize * PLACE_WIDTH;
                cycle.places[start + 2] = places[places.len() - 1] + 1;
                assert_eq!(all.repair(&cycle)?, Some(length), "{space:?}, {length} go round");

                // The first place is one deeper than its parent says, or not deep enough.
                for depth in [0, 2] {
                    let wrong = line(&all, space, places, depth);
                    assert_eq!(all.repair(&wrong)?, Some(length), "{space:?}, from depth {depth}");
                }
            }
        }
    }
    Ok(())
}
