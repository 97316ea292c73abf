//! The calls that are measured, by sections of docs/BENCHMARK.md.

use std::hint::black_box;
use std::io;

use model::boot::{ROOT_EC, ROOT_SELECTOR};
use model::descriptor::{Descriptor, FULL_MASK};
use model::layout::{BLOCK_WORDS, DEPTH_LIMIT, DOMAIN_PLACES, OBJECT_WIDTH, PLACES};
use model::tables::{ObjectKind, Space, CALL_PT, MEMORY_PERMISSIONS};
use model::Hypercall;

use crate::call::{Call, Case, Cell, Times, SIDES};
use crate::counting::{measured, of_calls};
use crate::descriptors::{self, ITEMS};
use crate::journals::{DELEGATE, FROM_HYPERVISOR};
use crate::markdown::{line, ratio, short, table};
use crate::tables::{boot, crowded, deep, full, lent_out, mixed, place, Lent, ORIGIN};
use crate::COUNT;

/// A call and what it took by the model and by the proved code.
pub struct Measured {
    pub columns: Vec<Cell>,
    times: Times,
    pub instructions: [u64; 2],
}

/// Groups of calls, each a table of the document.
#[derive(Clone, Copy, PartialEq)]
pub enum Section {
    Damage,
    Calls,
    Descriptors,
    Live,
    Depth,
}

impl Section {
    const ALL: [Section; 5] = [
        Section::Damage,
        Section::Calls,
        Section::Descriptors,
        Section::Live,
        Section::Depth,
    ];

    const fn name(self) -> &'static str {
        match self {
            Section::Damage => "damage",
            Section::Calls => "calls",
            Section::Descriptors => "descriptors",
            Section::Live => "live",
            Section::Depth => "depth",
        }
    }

    pub fn from_name(name: &str) -> Option<Section> {
        Section::ALL
            .into_iter()
            .find(|section| section.name() == name)
    }

    fn cases(self) -> Vec<Case> {
        match self {
            Section::Damage => damage_tests(),
            Section::Calls => calls(),
            Section::Descriptors => descriptors::messages(),
            Section::Live => by_live_places(),
            Section::Depth => by_depth(),
        }
    }

    /// What the first columns are called.
    const fn head(self) -> &'static [&'static str] {
        match self {
            Section::Damage => &["tables", "live places"],
            Section::Calls => &["tables", "call", "places"],
            Section::Descriptors => &["items"],
            Section::Live => &["call", "live places", "heirs"],
            Section::Depth => &["call", "depth", "heirs"],
        }
    }
}

fn damage_tests() -> Vec<Case> {
    let tables = [
        ("boot", boot()),
        ("mixed", mixed()),
        ("deep", deep()),
        ("full", full()),
        ("crowded", crowded()),
    ];
    let case = |(name, lent): (&'static str, Lent)| {
        let columns = vec![Cell::Text(name), Cell::Number(lent.live())];
        Case::new(columns, lent, Call::DamageTest)
    };
    tables.into_iter().map(case).collect()
}

/// Looks at the root's PD, sends a message where there is a portal, takes back all that was
/// lent of the root's objects, and asks for the heirs of the place that has most.
fn calls() -> Vec<Case> {
    let mut cases = Vec::new();
    for (name, lent) in [("boot", boot()), ("mixed", mixed()), ("full", full())] {
        let mut add = |call_name: &'static str, lent: &Lent, call: Call| {
            let columns = vec![Cell::Text(name), Cell::Text(call_name)];
            cases.push(Case::new(columns, lent.clone(), call).with_places());
        };
        let pd = Descriptor::new(Space::Object, ROOT_SELECTOR, 0, FULL_MASK).word();
        let lookup = Call::Root(Hypercall::Lookup, [pd, 0, 0, 0, 0, 0]);
        add("LOOKUP", &lent, lookup);
        let message = |portal| {
            let call = Call::Root(Hypercall::Call, [portal, 0, 0, 0, 0, 0]);
            Case::new(Vec::new(), with_message(&lent), call)
        };
        // Of the portals one whose callee has most places for the pages.
        let messages = portals(&lent).into_iter().map(message);
        if let Some(Case { lent, call, .. }) = messages.max_by_key(Case::places) {
            add("CALL", &lent, call);
        }
        let objects = Descriptor::new(Space::Object, 0, Space::Object.order_limit(), FULL_MASK);
        let revoke = Call::Root(Hypercall::Revoke, [objects.word(), 0, 0, 0, 0, 0]);
        add("REVOKE", &lent, revoke);
        add("census", &lent, Call::Census(most_heirs(&lent)));
    }
    cases
}

/// The root's selectors of portals to other ECs of the root EC's CPU.
fn portals(lent: &Lent) -> Vec<u32> {
    let (records, _) = lent.objects.as_chunks::<OBJECT_WIDTH>();
    let [_, _, cpu, ..] = records[ROOT_EC as usize];
    let leads = |&selector: &u32| {
        let row = lent.rows()[place(1, Space::Object, selector) as usize];
        let [kind, ec, ..] = records[row[0] as usize];
        row[1] & CALL_PT != 0
            && kind == ObjectKind::Pt as u32
            && ec != ROOT_EC
            && records[ec as usize][2] == cpu
    };
    (0..Space::Object.selectors()).filter(leads).collect()
}

/// The tables with a message that delegates all pages of domain 0 to all pages of the
/// receiver that are null.
fn with_message(lent: &Lent) -> Lent {
    let mut lent = lent.clone();
    let order = Space::Memory.order_limit();
    lent.source[0] = 1 << 16;
    lent.source[BLOCK_WORDS - 2..].copy_from_slice(&[
        FROM_HYPERVISOR | DELEGATE,
        Descriptor::new(Space::Memory, 0, order, MEMORY_PERMISSIONS).word(),
    ]);
    lent.target[2] = Descriptor::new(Space::Memory, 0, order, FULL_MASK).word();
    lent
}

/// The place that has most heirs.
fn most_heirs(lent: &Lent) -> u32 {
    let heirs = |&place: &u32| {
        let mut list = [0; PLACES];
        let reply = model::census(place, &lent.places, &lent.objects, &mut list);
        // Of places with as many the lowest.
        (reply.answer, PLACES as u32 - place)
    };
    (0..PLACES as u32).max_by_key(heirs).unwrap_or(0)
}

/// REVOKE and census of the root's first page, on tables with a number each.
fn of_origin(all: Vec<(u64, Lent)>) -> Vec<Case> {
    let page = Descriptor::new(Space::Memory, 0, 0, FULL_MASK).word();
    let revoke = Call::Root(Hypercall::Revoke, [page, 0, 0, 0, 0, 0]);
    let mut cases = Vec::new();
    for (name, call) in [("REVOKE", revoke), ("census", Call::Census(ORIGIN))] {
        for (number, lent) in &all {
            let columns = vec![Cell::Text(name), Cell::Number(*number)];
            cases.push(Case::new(columns, lent.clone(), call).with_places());
        }
    }
    cases
}

fn by_live_places() -> Vec<Case> {
    const STEPS: usize = 6;
    // Nothing is lent to domain 0.
    let least = lent_out(0, 2);
    let others = least.rows()[DOMAIN_PLACES as usize..].iter();
    let null = others.filter(|row| row[1] == 0).count();
    let all = (0..=STEPS).map(|step| {
        let lent = lent_out(null * step / STEPS, 2);
        (lent.live(), lent)
    });
    of_origin(all.collect())
}

fn by_depth() -> Vec<Case> {
    let depths = [2, 4, 8, 16, 32, DEPTH_LIMIT];
    of_origin(
        depths
            .map(|depth| (depth.into(), lent_out(PLACES, depth)))
            .into(),
    )
}

/// Makes each call of a section once by each side, after one that is not counted.
pub fn count_once(section: Section) {
    for Case { lent, call, .. } in section.cases() {
        for side in SIDES {
            let mut words = lent.clone();
            call.run(side, &mut words);
            words.clone_from(&lent);
            measured(&mut || {
                black_box(black_box(call).run(side, black_box(&mut words)));
            });
        }
    }
}

/// Measures every call of a section.
pub fn measured_section(section: Section, rounds: u32) -> io::Result<Vec<Measured>> {
    eprintln!("calls: {}", section.name());
    let cases = section.cases();
    let counts = of_calls(&[COUNT, section.name()])?;
    let (counts, []) = counts.as_chunks::<2>() else {
        return Err(io::Error::other("callgrind missed a call"));
    };
    if counts.len() != cases.len() {
        return Err(io::Error::other("callgrind missed a call"));
    }
    let mut all = Vec::new();
    for (case, &instructions) in cases.into_iter().zip(counts) {
        case.verify()?;
        all.push(Measured {
            times: case.time(rounds),
            columns: case.columns,
            instructions,
        });
    }
    Ok(all)
}

/// Prints the calls of a section.
pub fn print(section: Section, all: &[Measured]) {
    let figures = [
        "model, ns",
        "proved, ns",
        "proved / model",
        "proved / reading",
        "model, instructions",
        "proved, instructions",
        "proved / model",
    ];
    let row = |one: &Measured| {
        let Times { reading, sides } = one.times;
        let [model, proved] = sides;
        let counts = one.instructions.map(|count| count as f64);
        let figures = [
            short(model),
            short(proved),
            ratio(proved, model),
            ratio(proved, reading),
            short(counts[0]),
            short(counts[1]),
            ratio(counts[1], counts[0]),
        ];
        one.columns.iter().map(Cell::text).chain(figures).collect()
    };
    table(
        &[section.head(), &figures].concat(),
        &all.iter().map(row).collect::<Vec<_>>(),
    );
}

/// Measures and prints a section of the document that is one table.
fn measure_section(section: Section, rounds: u32) -> io::Result<()> {
    print(section, &measured_section(section, rounds)?);
    Ok(())
}

pub fn measure(rounds: u32) -> io::Result<()> {
    line("## Calls through the archive");
    measure_section(Section::Calls, rounds)
}

/// Measures and prints what an item adds to a message: two descriptors are read, its own
/// and the window's.
pub fn measure_descriptors(rounds: u32) -> io::Result<()> {
    line("## Reading descriptors");
    let section = Section::Descriptors;
    let all = measured_section(section, rounds)?;
    let [empty, full @ ..] = all.as_slice() else {
        return Err(io::Error::other("no message was measured"));
    };
    let each = |full: [f64; 2], empty: [f64; 2]| {
        let [model, proved] = [0, 1].map(|side| (full[side] - empty[side]) / ITEMS as f64);
        [short(model), short(proved), ratio(proved, model)]
    };
    let row = |one: &Measured| {
        let times = each(one.times.sides, empty.times.sides);
        let [counts, none] = [one, empty].map(|one| one.instructions.map(|count| count as f64));
        let first = one.columns.iter().map(Cell::text);
        first.chain(times).chain(each(counts, none)).collect()
    };
    let figures = [
        "model, ns",
        "proved, ns",
        "proved / model",
        "model, instructions",
        "proved, instructions",
        "proved / model",
    ];
    table(
        &[section.head(), &figures].concat(),
        &full.iter().map(row).collect::<Vec<_>>(),
    );
    Ok(())
}

pub fn measure_damage_test(rounds: u32) -> io::Result<()> {
    line("## The damage test");
    measure_section(Section::Damage, rounds)
}
