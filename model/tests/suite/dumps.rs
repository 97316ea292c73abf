//! Random dumps: which rules each sort of damage breaks, and what they reach.

use std::collections::BTreeMap;

use model::dump::{Dump, WrongLength};
use model::dump_generator::{damaged, dump, Made, Sort, Stock};
use model::random::Random;
use model::{damage, Status};

use crate::found_tables::{operated, world_of, Fault, Found, OUTSIDE};
use crate::world::*;

/// The first place of domain 0 that is null at boot.
const FIRST_NULL: u32 = 156;

#[test]
fn the_same_seeds_give_the_same_dumps() {
    let made = |stock: u64, seed: u64| {
        let stock = Stock::new(stock);
        let mut random = Random::new(seed);
        [(); 20].map(|_| dump(&mut random, &stock))
    };
    assert!(made(5, 5) == made(5, 5));
    assert!(made(5, 5) != made(5, 6));
    assert!(made(5, 5) != made(6, 5));
}

/// The rules that dumps break first which are damaged in one way alone; 0 stands for none.
const fn first_rules(sort: Sort) -> &'static [u32] {
    match sort {
        Sort::Sound => &[0],
        Sort::LeftOver => &[10],
        Sort::HypervisorLeftOver
        | Sort::HypervisorChanged
        | Sort::HypervisorGained
        | Sort::HypervisorLost
        | Sort::HypervisorBroken
        | Sort::HypervisorInLine
        | Sort::BootRecord => &[2],
        Sort::OwnParent
        | Sort::PairCycle
        | Sort::LongCycle
        | Sort::ParentPast
        | Sort::ParentNull
        | Sort::OtherSpace
        | Sort::OtherResource
        | Sort::ResourcePast
        | Sort::OtherDepth
        | Sort::HugeDepth
        | Sort::AboveParent
        | Sort::AboveGreatest
        | Sort::Orphan
        | Sort::NoDomain => &[11],
        Sort::ParentEmptied => &[10, 11],
        Sort::TooDeep => &[12],
        Sort::Interrupt => &[3],
        Sort::KindAbove | Sort::UnnamedWord => &[4],
        Sort::Freed => &[5, 11],
        Sort::Gap => &[5],
        Sort::Numbering => &[6],
        Sort::Context => &[7],
        Sort::Scheduling => &[8],
        Sort::Portal => &[9],
        Sort::Words | Sort::Rows | Sort::Noise => &[2, 3, 4, 5, 6, 7, 8, 9, 10, 11, 12],
        Sort::Short | Sort::Long => &[],
    }
}

#[test]
fn each_sort_mostly_breaks_its_rules_first() {
    let stock = Stock::new(18);
    let mut random = Random::new(180);
    let tries = 60;
    for sort in Sort::ALL {
        let rules = first_rules(sort);
        let mut seen = vec![0; rules.len()];
        let mut lines = [0; 2];
        for _ in 0..tries {
            let bytes = damaged(&mut random, &stock, &[sort]);
            match Dump::read(&bytes) {
                Err(WrongLength::Short) => lines[0] += 1,
                Err(WrongLength::Long) => lines[1] += 1,
                Ok(Dump { places, objects }) => {
                    let rule = damage(&places, &objects).map_or(0, |damage| damage.rule);
                    if let Some(at) = rules.iter().position(|&expected| expected == rule) {
                        seen[at] += 1;
                    }
                }
            }
        }
        let good = match sort {
            Sort::Short => lines[0],
            Sort::Long => lines[1],
            _ => seen.iter().sum(),
        };
        assert!(good >= tries * 2 / 3, "{sort:?}: {rules:?} {seen:?}");
        let some_are_rare = seen.len() < 5 && seen.iter().any(|&count| count < tries / 10);
        assert!(!some_are_rare, "{sort:?}: {rules:?} {seen:?}");
    }
}

/// By space.
const SPACE_NAMES: [&str; 3] = ["memory", "I/O", "object"];

/// What is to be met in a dump, by names that no dump has twice.
fn features(made: &Made) -> Vec<String> {
    let mut names: Vec<String> = Vec::new();
    for sort in &made.sorts {
        names.push(format!("sort {sort:?}"));
    }
    let mut name = |name: &str| names.push(name.to_string());
    if made.sorts.len() > 1 {
        name("several damages");
    }
    if made.bytes.is_empty() {
        name("no bytes");
    }
    let dump = match Dump::read(&made.bytes) {
        Err(wrong) => {
            name(&format!("{wrong:?}"));
            return names;
        }
        Ok(dump) => dump,
    };
    let world = world_of(&dump);
    let found = Found::new(&world);
    let first = damage(&world.places, &world.objects).map_or(0, |damage| damage.rule);
    name(&format!("rule {first} first"));
    name(match operated(&world).0 {
        (Status::Success, 0) => "nothing lost",
        (Status::Success, 1) => "one capability lost",
        (Status::Success, _) => "several capabilities lost",
        _ => "not to be repaired",
    });
    if !found.pds[1..].windows(2).all(|pair| pair[0] || !pair[1]) {
        name("a domain without a PD before one with a PD");
    }
    let heights = heights(&found);
    for number in 0..PLACES {
        let [_, permissions, _, depth] = world.row(number);
        let space = SPACE_NAMES[within(number).0 as usize];
        let faults = &found.faults[number as usize];
        let parent = found.live_parent(number);
        let is_outside = number >= OUTSIDE;
        if permissions == 0 {
            if world.row(number) != NULL {
                name(match number {
                    0..FIRST_NULL => "words left where boot has a capability",
                    FIRST_NULL..OUTSIDE => "words left in domain 0",
                    _ if found.pds[(number / DOMAIN_PLACES) as usize] => "words left",
                    _ => "words left in a domain without a PD",
                });
            }
            continue;
        }
        if let ([fault], true) = (&faults[..], is_outside) {
            name(&format!("{space}: {fault:?} alone"));
        }
        if faults.len() > 2 {
            name("three faults of a place");
        }
        if !faults.is_empty() && is_outside {
            // Where in its line a place breaks, if all above it is whole.
            let above = parent.filter(|&above| found.whole[above as usize]);
            let height = heights[number as usize];
            let position = match above.map(|above| (world.row(above)[3], height)) {
                Some((0, 2..)) => "at the top",
                Some((2.., 2..)) => "in the middle",
                Some((2.., 0)) => "at its end",
                _ => "elsewhere",
            };
            for fault in faults {
                name(&format!("a line broken {position}: {fault:?}"));
            }
        }
        if found.whole[number as usize] && depth == DEPTH_LIMIT {
            name(&format!("{space}: a whole chain of 64 places"));
        }
        if faults[..] == [Fault::TooDeep] && depth == DEPTH_LIMIT + 10 {
            // No other fault up to the last place that stays.
            let is_too_deep = |at: &u32| found.faults[*at as usize] == [Fault::TooDeep];
            let line = std::iter::successors(Some(number), |&at| found.live_parent(at));
            if line.take(11).filter(is_too_deep).count() == 10 {
                name("a line that goes on far below depth 63");
            }
        }
        if depth >= 1 << 31 {
            name("a huge depth");
        }
        if faults.contains(&Fault::ParentNull) {
            let above = world.row(number)[2] - 1;
            name(match world.row(above) {
                NULL if above < OUTSIDE => "a parent in domain 0 that is empty",
                NULL => "a parent that is empty",
                _ if above < OUTSIDE => "a parent in domain 0 without permissions",
                _ => "a parent without permissions",
            });
        }
        if is_outside && faults.is_empty() && !found.whole[number as usize] {
            // Emptied for an ancestor alone: how far up that is, and where.
            let (distance, above) = first_fault(&found, number);
            name(match distance {
                1 => "lost with its parent",
                2..10 => "lost with an ancestor",
                10..40 => "lost with a far ancestor",
                _ => "lost with a very far ancestor",
            });
            if above < OUTSIDE {
                name("lost with a place of domain 0");
            }
        }
        if !is_outside && world.row(number) != listed_row(number) {
            let heirs = match heights[number as usize] {
                0 => "without heirs",
                _ => "with heirs",
            };
            let at_boot = match number {
                0..FIRST_NULL => "live at boot",
                _ => "null at boot",
            };
            name(&match (&faults[..], found.whole[number as usize]) {
                ([], true) => format!("domain 0: rule 2 alone, {at_boot}, {heirs}"),
                ([], false) => format!("domain 0: below a broken place, {heirs}"),
                ([Fault::TooDeep], _) => format!("domain 0: rule 12, {heirs}"),
                _ => format!("domain 0: rule 11, {heirs}"),
            });
        }
    }
    for (length, leads_in, in_domain_0) in cycles(&found) {
        name(match length {
            1 => "a cycle of one place",
            2 => "a cycle of two places",
            3..10 => "a cycle of more places",
            _ => "a long cycle",
        });
        if leads_in {
            name("a line that leads into a cycle");
        }
        if in_domain_0 {
            name("a cycle through domain 0");
        }
    }
    names.sort();
    names.dedup();
    names
}

/// How many places up the first one that breaks a rule is, and which.
fn first_fault(found: &Found, number: u32) -> (u32, u32) {
    let (mut distance, mut at) = (0, number);
    while found.keeps(at) {
        at = found.live_parent(at).expect("a parent, as 11e says");
        distance += 1;
    }
    (distance, at)
}

/// For each place the places of the longest line below it, counted up to 3.
fn heights(found: &Found) -> Vec<u32> {
    let mut heights = vec![0; PLACES as usize];
    for number in 0..PLACES {
        let mut at = number;
        for height in 1..=3 {
            match found.live_parent(at) {
                Some(above) => at = above,
                None => break,
            }
            heights[at as usize] = height.max(heights[at as usize]);
        }
    }
    heights
}

/// The cycles of live places: how long each is, whether another place leads into it, and
/// whether a place of domain 0 is in it.
fn cycles(found: &Found) -> Vec<(usize, bool, bool)> {
    // By place, the walk that came there first.
    let mut been: Vec<Option<u32>> = vec![None; PLACES as usize];
    let mut cycles: Vec<Vec<u32>> = Vec::new();
    for start in 0..PLACES {
        let mut at = Some(start).filter(|&number| found.is_live(number));
        while let Some(number) = at {
            match been[number as usize] {
                Some(walk) if walk == start => {
                    let mut cycle = vec![number];
                    let mut next = found.live_parent(number);
                    while let Some(above) = next.filter(|&above| above != number) {
                        cycle.push(above);
                        next = found.live_parent(above);
                    }
                    cycles.push(cycle);
                    break;
                }
                Some(_) => break,
                None => been[number as usize] = Some(start),
            }
            at = found.live_parent(number);
        }
    }
    let shape = |cycle: Vec<u32>| {
        let leads_in = (0..PLACES).any(|number| {
            let parent = found.live_parent(number);
            !cycle.contains(&number) && parent.is_some_and(|parent| cycle.contains(&parent))
        });
        let in_domain_0 = cycle.iter().any(|&number| number < OUTSIDE);
        (cycle.len(), leads_in, in_domain_0)
    };
    cycles.into_iter().map(shape).collect()
}

/// What the dumps must reach, beside every sort and the first broken rules.
fn wanted() -> Vec<String> {
    let mut wanted: Vec<String> = Sort::ALL.map(|sort| format!("sort {sort:?}")).to_vec();
    let rules = [0].into_iter().chain(2..=12);
    wanted.extend(rules.map(|rule| format!("rule {rule} first")));
    let everywhere = [
        Fault::Domain,
        Fault::ResourcePast,
        Fault::Greatest,
        Fault::ParentPast,
        Fault::ParentNull,
        Fault::OtherSpace,
        Fault::OtherResource,
        Fault::OtherDepth,
        Fault::TooDeep,
    ];
    for space in SPACE_NAMES {
        wanted.extend(everywhere.map(|fault| format!("{space}: {fault:?} alone")));
        wanted.push(format!("{space}: a whole chain of 64 places"));
    }
    for position in ["at the top", "in the middle", "at its end"] {
        let faults = [Fault::Domain, Fault::OtherResource, Fault::OtherDepth];
        wanted.extend(faults.map(|fault| format!("a line broken {position}: {fault:?}")));
    }
    // The others cannot be the only fault in every space.
    wanted.extend(
        [
            "memory: NoParent alone",
            "I/O: NoParent alone",
            "memory: AboveParent alone",
            "object: AboveParent alone",
            "object: DepthWithoutParent alone",
            "object: FreeRecord alone",
            "object: KindAbove alone",
            "several damages",
            "no bytes",
            "Short",
            "Long",
            "nothing lost",
            "one capability lost",
            "several capabilities lost",
            "not to be repaired",
            "a domain without a PD before one with a PD",
            "words left where boot has a capability",
            "words left in domain 0",
            "words left",
            "words left in a domain without a PD",
            "three faults of a place",
            "a line that goes on far below depth 63",
            "a huge depth",
            "a parent in domain 0 that is empty",
            "a parent that is empty",
            "a parent in domain 0 without permissions",
            "a parent without permissions",
            "lost with its parent",
            "lost with an ancestor",
            "lost with a far ancestor",
            "lost with a very far ancestor",
            "lost with a place of domain 0",
            "domain 0: rule 2 alone, live at boot, with heirs",
            "domain 0: rule 2 alone, null at boot, with heirs",
            "domain 0: below a broken place, with heirs",
            "domain 0: rule 12, with heirs",
            "domain 0: rule 11, with heirs",
            "a cycle of one place",
            "a cycle of two places",
            "a cycle of more places",
            "a long cycle",
            "a line that leads into a cycle",
            "a cycle through domain 0",
        ]
        .map(String::from),
    );
    wanted
}

#[test]
fn random_dumps_reach_what_they_must() {
    let mut random = Random::new(172);
    // In how many dumps each thing occurs.
    let mut counts: BTreeMap<String, u32> = BTreeMap::new();
    for seed in 10..15 {
        let stock = Stock::new(seed);
        for _ in 0..1000 {
            for name in features(&dump(&mut random, &stock)) {
                *counts.entry(name).or_default() += 1;
            }
        }
    }
    for name in wanted() {
        let count = counts.get(&name).copied().unwrap_or(0);
        assert!(count >= 20, "{name}: {count} times");
    }
}
