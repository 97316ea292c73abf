//! Times the slowest calls that are known of each function, on tables or a page
//! made for it, and prints a line for each: the least of many runs, with what it is
//! lent in the caches and flushed from there before each run.

use std::arch::x86_64::{_mm_clflush, _mm_mfence};
use std::hint::black_box;
use std::time::{Duration, Instant};

use rudozhev::hip::{MemoryType, CPU_BYTES, FIELDS, GREATEST_LENGTH};
use rudozhev::words::{
    self, BLOCK_WORDS, OBJECT_WORDS, PLACES, PLACE_WIDTH, PLACE_WORDS, RECORD_WIDTH,
};
use rudozhev::{
    Descriptor, Domain, EventBase, Hypercall, ObjectNumber, ObjectSelector, Place, Refusal,
    Selector, Space, Tables,
};

const RUNS: usize = 3_000;

/// The objects that `furnished` makes: the EC of a domain from 2 to 7.
const fn ec_of(domain: u32) -> u32 {
    32 + 2 * (domain - 2)
}

/// The root's selector of the portal to domain 2.
const PORTAL: u32 = 62;

/// What a call on tables may read and write.
#[derive(Clone)]
struct Lent {
    places: [u32; PLACE_WORDS],
    objects: [u32; OBJECT_WORDS],
    source: [u32; BLOCK_WORDS],
    target: [u32; BLOCK_WORDS],
    list: [u32; PLACES as usize],
}

/// Memory descriptors of the longest page that has a CPU.
const RANGES: usize = 2_728;

/// What a call on an information page may read and write.
#[derive(Clone)]
struct LentPage {
    bytes: [u8; GREATEST_LENGTH],
    length: usize,
    fields: [u32; FIELDS],
    cpu: [u8; CPU_BYTES],
    addresses: [u64; RANGES],
    sizes: [u64; RANGES],
    types: [i32; RANGES],
    auxiliaries: [u32; RANGES],
    numbers: [u64; 3],
}

/// A call to time: its name, what it is lent at its beginning, and what it answers.
struct Case<'a, T> {
    name: &'a str,
    lent: &'a T,
    call: fn(&mut T) -> Option<u32>,
    answer: u32,
}

fn selector(number: u32) -> ObjectSelector {
    ObjectSelector::new(number).expect("an object selector")
}

fn place(domain: u32, space: Space, number: u32) -> u32 {
    let selector = Selector::new(space, number).expect("a selector");
    Place::new(Domain::new(domain).expect("a domain"), selector).number()
}

fn word(space: Space, base: u32, order: u32) -> u32 {
    Descriptor::new(space, base, order, Descriptor::FULL_MASK).expect("a range").word()
}

/// Tables with seven PDs, an EC in each, and a portal of the root to domain 2's. The
/// root has given up the pages that boot lends it, so that all its pages are null.
fn furnished() -> Result<Lent, Refusal> {
    let mut tables = Tables::booted();
    let (root, pd) = (ObjectNumber::ROOT_EC, selector(32));
    let pages = word(Space::Memory, Selector::ROOT_UTCB_PAGE.number(), 1);
    let range = Descriptor::from_word(pages);
    tables.hypercall(root, Hypercall::Revoke { range, with_self: true })?;
    let event_base = EventBase::at(ObjectSelector::FIRST);
    for domain in 2..8 {
        let [new_pd, new_ec] = [2 * domain + 32, 2 * domain + 33].map(selector);
        let initial = Descriptor::NULL;
        tables.hypercall(root, Hypercall::CreatePd { new: new_pd, pd, initial })?;
        tables
            .hypercall(root, Hypercall::CreateEc { new: new_ec, pd: new_pd, cpu: 0, event_base })?;
    }
    let (new, ec) = (selector(PORTAL), selector(37));
    tables.hypercall(root, Hypercall::CreatePt { new, pd, ec, mtd: 0, ip: 0, identifier: 0 })?;
    for domain in 2..8 {
        let record = ec_of(domain) as usize * RECORD_WIDTH;
        assert_eq!(tables.object_words()[record..record + 2], [2, domain]);
    }
    Ok(Lent {
        places: *tables.place_words(),
        objects: *tables.object_words(),
        source: [0; BLOCK_WORDS],
        target: [0; BLOCK_WORDS],
        list: [0; PLACES as usize],
    })
}

/// Fills a null place as a delegation from its parent would.
fn lend(lent: &mut Lent, parent: u32, child: u32) {
    let [from, to] = [parent, child].map(|place| place as usize * PLACE_WIDTH);
    if lent.places[to + 1] == 0 {
        let [resource, permissions, _, depth] = lent.places[from..from + PLACE_WIDTH] else {
            unreachable!("a place has four words")
        };
        let words = [resource, permissions, parent + 1, depth + 1];
        lent.places[to..to + PLACE_WIDTH].copy_from_slice(&words);
    }
}

/// As many places as can be are as deep as can be: in each space a line of 62
/// from a place of domain 0 through domain 7, and from its end every other place
/// outside domain 0 that is null.
fn deepest() -> Result<Lent, Refusal> {
    let mut lent = furnished()?;
    for space in [Space::Memory, Space::Io, Space::Object] {
        let mut parent = place(0, space, 4);
        for depth in 0..62 {
            let next = place(7, space, depth);
            lend(&mut lent, parent, next);
            parent = next;
        }
        for domain in 1..8 {
            (0..space.selectors())
                .for_each(|number| lend(&mut lent, parent, place(domain, space, number)));
        }
    }
    Ok(lent)
}

/// The same with a wrong depth at the first place of each line, so that no chain outside
/// domain 0 is whole but those of the objects that have no parent.
fn broken() -> Result<Lent, Refusal> {
    let mut lent = deepest()?;
    for space in [Space::Memory, Space::Io, Space::Object] {
        lent.places[place(7, space, 0) as usize * PLACE_WIDTH + 3] = 0;
    }
    Ok(lent)
}

/// The domain that sends the messages of the tables below, and has the portal to
/// domain 2 at every object selector.
const SENDER: u32 = 3;

/// Every page and port goes from domain 0 to domain 2, and the root's portal to its object
/// selectors; each of these goes on through the domains 4 to 7 to the sender.
fn lines() -> Result<Lent, Refusal> {
    let mut lent = furnished()?;
    for space in [Space::Memory, Space::Io, Space::Object] {
        for number in 0..space.selectors() {
            let first = match space {
                Space::Object => place(1, space, PORTAL),
                Space::Memory | Space::Io => place(0, space, number),
            };
            let line = [2, 4, 5, 6, 7, SENDER].map(|domain| place(domain, space, number));
            lend(&mut lent, first, line[0]);
            line.windows(2).for_each(|pair| lend(&mut lent, pair[0], pair[1]));
        }
    }
    Ok(lent)
}

/// The same, and a message that translates all object selectors 30 times.
fn translated() -> Result<Lent, Refusal> {
    let mut lent = lines()?;
    lent.source[0] = 30 << 16;
    for item in lent.source[4..].chunks_mut(2) {
        item[1] = word(Space::Object, 0, Space::Object.greatest_order());
    }
    lent.target[1] = word(Space::Object, 0, Space::Object.greatest_order());
    Ok(lent)
}

/// The sender alone has the portal at every object selector, and the message delegates them all to
/// domain 2, 30 times.
fn delegated() -> Result<Lent, Refusal> {
    let mut lent = furnished()?;
    let portal = place(1, Space::Object, PORTAL);
    (0..Space::Object.selectors())
        .for_each(|number| lend(&mut lent, portal, place(SENDER, Space::Object, number)));
    lent.source[0] = 30 << 16;
    for item in lent.source[4..].chunks_mut(2) {
        item.copy_from_slice(&[1, word(Space::Object, 0, Space::Object.greatest_order())]);
    }
    lent.target[2] = word(Space::Object, 0, Space::Object.greatest_order());
    Ok(lent)
}

fn hypercall(lent: &mut Lent, number: u32, caller: u32, a: u32, b: u32) -> Option<u32> {
    let arguments = [a, b, 0, 0, 0, 0];
    let Lent { places, objects, source, target, .. } = lent;
    words::hypercall(number, caller, arguments, places, objects, source, target).ok()
}

fn message(lent: &mut Lent) -> Option<u32> {
    hypercall(lent, words::CALL, ec_of(SENDER), 0, 0)
}

fn repair(lent: &mut Lent) -> Option<u32> {
    words::repair(&mut lent.places, &lent.objects).ok()
}

/// Writes the page at the start of its bytes.
fn write_page(lent: &mut LentPage) -> Option<u32> {
    let LentPage { bytes, fields, cpu, addresses, sizes, types, auxiliaries, .. } = lent;
    let length = words::hip_write(fields, cpu, addresses, sizes, types, auxiliaries, bytes).ok()?;
    length.try_into().ok()
}

/// The longest page that has a CPU and as many memory descriptors as it can have.
fn longest_page() -> LentPage {
    let mut lent = LentPage {
        bytes: [0; GREATEST_LENGTH],
        length: 0,
        fields: [u32::MAX; FIELDS],
        cpu: [1, 0, 0, 0],
        addresses: [u64::MAX; RANGES],
        sizes: [u64::MAX; RANGES],
        types: [MemoryType::MultibootModule.number(); RANGES],
        auxiliaries: [u32::MAX; RANGES],
        numbers: [0; 3],
    };
    lent.length = write_page(&mut lent).expect("a page that is not too long") as usize;
    lent
}

/// Drops what a call may read from the caches.
fn flush<T>(lent: &T) {
    let start = (lent as *const T).cast::<u8>();
    for line in (0..size_of::<T>()).step_by(64) {
        // SAFETY: the offset is inside `lent`, and flushing a line changes no byte.
        unsafe { _mm_clflush(start.add(line)) };
    }
    // SAFETY: a fence touches no memory.
    unsafe { _mm_mfence() };
}

/// The least time of a call over many runs, each on the same words.
fn least<T: Clone>(case: &Case<T>, flushed: bool) -> Duration {
    let mut lent = case.lent.clone();
    let run = |_| {
        lent.clone_from(case.lent);
        if flushed {
            flush(&lent);
        }
        let begin = Instant::now();
        let reply = (case.call)(black_box(&mut lent));
        let time = begin.elapsed();
        assert_eq!(reply, Some(case.answer), "{}", case.name);
        time
    };
    (0..RUNS).map(run).min().expect("some runs")
}

/// Times calls and prints a line for each.
fn print<T: Clone>(cases: &[Case<T>]) {
    for case in cases {
        let [cached, flushed] = [false, true].map(|flushed| least(case, flushed).as_nanos());
        println!("{:45} {cached:12} {flushed:12}", case.name);
    }
}

/// Whether the callee is shown all object selectors 30 times.
fn shows_all(mut lent: Lent) -> bool {
    let all =
        Descriptor::new(Space::Object, 0, Space::Object.greatest_order(), 3).map(Descriptor::word);
    message(&mut lent) == Some(0) && lent.target[4..].chunks(2).all(|item| Some(item[1]) == all)
}

fn main() -> Result<(), Refusal> {
    let [deepest, translated, delegated] = [deepest()?, translated()?, delegated()?];
    for lent in [&deepest, &translated, &delegated] {
        assert!(words::is_sound(&lent.places, &lent.objects));
    }
    assert!(shows_all(translated.clone()));
    let broken = broken()?;
    let cases = [
        Case {
            name: "census of an object selector with 1,776 heirs",
            lent: &deepest,
            call: |lent| {
                let Lent { places, objects, list, .. } = lent;
                words::census(place(0, Space::Object, 4), places, objects, list).ok()
            },
            answer: 1_776,
        },
        Case {
            name: "CALL that translates 30 times 256 selectors",
            lent: &translated,
            call: message,
            answer: 0,
        },
        Case {
            name: "REVOKE of an object selector with 1,775 heirs",
            lent: &deepest,
            call: |lent| hypercall(lent, words::REVOKE, ec_of(7), word(Space::Object, 0, 0), 0),
            answer: 0,
        },
        Case {
            name: "CALL that delegates 30 times 256 selectors",
            lent: &delegated,
            call: message,
            answer: 256,
        },
        Case {
            name: "LOOKUP of a range of 64 pages",
            lent: &translated,
            call: |lent| {
                hypercall(lent, words::LOOKUP, ec_of(SENDER), word(Space::Memory, 0, 0), 0)
            },
            answer: 7 << 2 | 6 << 7 | 1,
        },
        Case {
            name: "damage, of sound tables",
            lent: &deepest,
            call: |lent| {
                Some(words::damage(&lent.places, &lent.objects).map_or(0, |found| found.rule))
            },
            answer: 0,
        },
        Case {
            name: "sound",
            lent: &deepest,
            call: |lent| Some(words::is_sound(&lent.places, &lent.objects).into()),
            answer: 1,
        },
        Case { name: "repair, of sound tables", lent: &deepest, call: repair, answer: 0 },
        Case {
            name: "repair that empties 2,672 places",
            lent: &broken,
            call: repair,
            answer: 2_672,
        },
        Case {
            name: "boot",
            lent: &deepest,
            call: |lent| words::boot(&mut lent.places, &mut lent.objects).ok(),
            answer: 0,
        },
    ];
    let page = longest_page();
    let page_cases = [
        Case {
            name: "hip_write of a page of 65,532 bytes",
            lent: &page,
            call: write_page,
            answer: 65_532,
        },
        Case {
            name: "hip_read of a page of 65,532 bytes",
            lent: &page,
            call: |lent| {
                let LentPage { bytes, length, fields, .. } = lent;
                words::hip_read(&bytes[..*length], fields).ok().map(|counts| counts.memories)
            },
            answer: 2_728,
        },
        Case {
            name: "hip_cpu of a page of 65,532 bytes",
            lent: &page,
            call: |lent| words::hip_cpu(&lent.bytes[..lent.length], 0).map(u32::from_le_bytes),
            answer: 1,
        },
        Case {
            name: "hip_memory of a page of 65,532 bytes",
            lent: &page,
            call: |lent| {
                let LentPage { bytes, length, numbers, .. } = lent;
                let found = words::hip_memory(&bytes[..*length], 2_727, numbers);
                found.map(i32::unsigned_abs)
            },
            answer: 2,
        },
    ];
    println!("{:45} {:>12} {:>12}", "", "cached, ns", "flushed, ns");
    print(&cases);
    print(&page_cases);
    Ok(())
}
