//! The proved functions against the model, on random calls from fixed seeds.
//! `examples/compare.rs` goes on with random calls for as long as is wanted.

mod comparison;

use comparison::{Comparison, Difference, Words};
use model::boot::{ROOT_EC, ROOT_SC};
use model::generator::{journal, Kind};
use model::journal::{Replay, Step};
use model::layout::{CPUS, DOMAIN_PLACES, SPACE_START};
use model::random::Random;
use model::tables::Space;
use model::Hypercall;
use rudozhev::words::{BLOCK_WORDS, OBJECT_WORDS, PLACE_WIDTH, PLACE_WORDS, RECORD_WIDTH};

fn booted(all: &mut Comparison) -> Result<Words, Difference> {
    let mut tables = Words { places: vec![0; PLACE_WORDS], objects: vec![0; OBJECT_WORDS] };
    all.boot(&mut tables)?;
    Ok(tables)
}

/// Sound tables with much in them, as a journal leaves them.
fn grown(seed: u64) -> Words {
    let bytes = journal(Kind::ALL[seed as usize % Kind::ALL.len()], seed, 200);
    let mut replay = Replay::new(&bytes);
    while let Step::Ran(..) = replay.step() {}
    Words { places: replay.machine.places.to_vec(), objects: replay.machine.objects.to_vec() }
}

#[test]
fn journals_agree() -> Result<(), Difference> {
    let mut all = Comparison::new(1);
    let seeds = 100..112;
    for kind in Kind::ALL {
        for seed in seeds.clone() {
            all.journal(&journal(kind, seed, 300))?;
        }
    }
    assert!(all.hypercalls as usize >= Kind::ALL.len() * seeds.count() * 300);
    for status in [0, 1, 4, 5, 7, 16, 18] {
        assert!(all.statuses.keys().any(|&(_, seen)| seen == status), "status {status}");
    }
    for number in Hypercall::ALL.map(Hypercall::number) {
        assert!(all.statuses.contains_key(&(Some(number), 0)), "hypercall {number}");
    }
    Ok(())
}

#[test]
fn calls_with_any_words_agree() -> Result<(), Difference> {
    let mut all = Comparison::new(2);
    for seed in 0..300 {
        let mut tables = grown(seed);
        for _ in 0..120 {
            all.loose_call(&mut tables)?;
        }
    }
    assert!(all.statuses.contains_key(&(None, 3)), "BAD_HYP");
    for number in Hypercall::ALL.map(Hypercall::number) {
        let seen = all.statuses.range((Some(number), 0)..(Some(number + 1), 0)).count();
        assert!(seen >= 3, "hypercall {number} gave {seen} statuses");
    }
    let sent = all.statuses.get(&(Some(Hypercall::Call.number()), 0));
    assert!(sent.is_some_and(|&sent| sent > 50), "CALL succeeded {sent:?} times");
    Ok(())
}

#[test]
fn damage_agrees_and_refuses_every_call() -> Result<(), Difference> {
    let mut all = Comparison::new(3);
    for seed in 0..60 {
        let tables = grown(seed);
        for _ in 0..700 {
            all.spoilt(&tables)?;
        }
    }
    for (rule, count) in all.rules.into_iter().enumerate() {
        assert!(count > 20, "rule {rule} was met {count} times");
    }
    Ok(())
}

#[test]
fn damage_agrees_at_every_bound_of_every_record() -> Result<(), Difference> {
    const BOUNDS: [u32; 12] = [0, 1, 2, 4, 6, 8, 28, 32, 64, 256, 1 << 20, u32::MAX];
    let mut all = Comparison::new(7);
    for seed in 0..24 {
        let mut tables = grown(seed);
        for word in 0..tables.objects.len() {
            let right = tables.objects[word];
            for value in BOUNDS.into_iter().flat_map(|bound| [bound, bound.wrapping_sub(1)]) {
                tables.objects[word] = value;
                all.damage(&tables)?;
            }
            tables.objects[word] = right;
        }
    }
    Ok(())
}

#[test]
fn damage_agrees_on_any_number_of_domains() -> Result<(), Difference> {
    let mut all = Comparison::new(8);
    let mut tables = booted(&mut all)?;
    let records = tables.objects.len() / RECORD_WIDTH;
    for (record, domain) in (ROOT_SC as usize + 1..records).zip(2..) {
        let start = record * RECORD_WIDTH;
        tables.objects[start..start + 2].copy_from_slice(&[1, domain]);
        assert_eq!(all.damage(&tables)?.is_none(), domain < 8);
    }
    Ok(())
}

/// Tables in which the root's pages came from domain 2's, in runs of any length
/// and distance, and its objects too where it has none of its own; and the root has
/// a portal to domain 2 at selector 37.
fn borrowed(all: &mut Comparison, random: &mut Random) -> Result<Words, Difference> {
    let mut tables = booted(all)?;
    for (call, arguments) in [
        (Hypercall::CreatePd, [35, 32, 0, 0, 0, 0]),
        (Hypercall::CreateEc, [36, 35, 0, 0, 0, 0]),
        (Hypercall::CreatePt, [37, 32, 36, 0, 0, 0]),
    ] {
        let (source, target) = (&[], &mut []);
        let refusal =
            all.hypercall(&mut tables, call.number(), ROOT_EC, arguments, source, target)?;
        assert_eq!(refusal, None);
    }
    let mut put = |place: u32, words: [u32; PLACE_WIDTH]| {
        let start = place as usize * PLACE_WIDTH;
        tables.places[start..start + PLACE_WIDTH].copy_from_slice(&words);
    };
    for space in [Space::Memory, Space::Object] {
        let (start, selectors) = (SPACE_START[space as usize], space.selectors());
        // Each page is of its own number; all objects are the first interrupt semaphore.
        let (most, resource): (u32, fn(u32) -> u32) = match space {
            Space::Object => (3, |_| CPUS),
            _ => (7, |selector| selector),
        };
        let mut distance = 0;
        for selector in 0..selectors {
            let lender = start + resource(selector);
            put(2 * DOMAIN_PLACES + start + selector, [resource(selector), most, lender + 1, 1]);
            if random.percent(15) {
                distance = random.below(selectors);
            }
            let own = space == Space::Object && (32..38).contains(&selector);
            if !own && random.percent(95) {
                let lent = (selector + distance) % selectors;
                let parent = 2 * DOMAIN_PLACES + start + lent;
                let words = [resource(lent), 1 + random.below(most), parent + 1, 2];
                put(DOMAIN_PLACES + start + selector, words);
            }
        }
    }
    assert_eq!(all.damage(&tables)?, None);
    Ok(tables)
}

#[test]
fn translations_agree() -> Result<(), Difference> {
    let mut all = Comparison::new(9);
    let mut random = Random::new(9);
    let range = |random: &mut Random, space: Space, order: u32| {
        let base = random.below(space.selectors()) >> order << order;
        base << 12 | order << 7 | random.below(32) << 2 | (space as u32 + 1)
    };
    for space in [Space::Memory, Space::Object] {
        let [mut shown, mut null] = [0, 0];
        for _ in 0..200 {
            let mut tables = borrowed(&mut all, &mut random)?;
            for _ in 0..10 {
                let (mut source, mut target) = ([0; BLOCK_WORDS], [0; BLOCK_WORDS]);
                source[0] = 30 << 16;
                for item in source[4..].chunks_mut(2) {
                    let order = random.below(4);
                    item[1] = range(&mut random, space, order);
                }
                let order = space.order_limit() - random.below(3);
                target[1] = range(&mut random, space, order);
                let call = Hypercall::Call.number();
                let arguments = [37, 0, 0, 0, 0, 0];
                all.hypercall(&mut tables, call, ROOT_EC, arguments, &source, &mut target)?;
                let count = target[4..].chunks(2).filter(|item| item[1] != 0).count();
                shown += count;
                null += 30 - count;
            }
        }
        assert!(shown > 10_000 && null > 10_000, "{space:?}: {shown} shown, {null} null");
    }
    Ok(())
}

#[test]
fn censuses_agree_with_lists_of_every_length() -> Result<(), Difference> {
    let mut all = Comparison::new(4);
    for seed in 0..60 {
        let tables = grown(seed);
        for _ in 0..150 {
            all.censuses(&tables)?;
        }
    }
    for status in [0, 4, 5, 19] {
        assert!(all.census_statuses.get(&status).is_some_and(|&count| count > 20), "{status}");
    }
    Ok(())
}

#[test]
fn boot_agrees_on_tables_of_any_length() -> Result<(), Difference> {
    let mut all = Comparison::new(5);
    (0..400).try_for_each(|_| all.boots())
}

#[test]
fn rounds_agree() -> Result<(), Difference> {
    let mut all = Comparison::new(6);
    for _ in 0..20 {
        all.round(400)?;
    }
    assert!(all.hypercalls >= 8_000 && all.censuses >= 8_000 && all.parts >= 6_000);
    Ok(())
}
