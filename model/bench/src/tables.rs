//! The tables that calls are measured on.

use model::boot::{ROOT_EC, ROOT_SELECTOR, UTCB_PAGE};
use model::descriptor::{Descriptor, FULL_MASK};
use model::generator::{journal, Kind};
use model::journal::{Machine, Replay, Step};
use model::layout::{
    BLOCK_WORDS, DOMAINS, DOMAIN_PLACES, OBJECT_WORDS, PLACES, PLACE_WIDTH, PLACE_WORDS,
    SPACE_START,
};
use model::tables::Space;
use model::{hypercall, Hypercall, Status};

/// What a call may read and write.
#[derive(Clone, PartialEq)]
pub struct Lent {
    pub places: [u32; PLACE_WORDS],
    pub objects: [u32; OBJECT_WORDS],
    pub source: [u32; BLOCK_WORDS],
    pub target: [u32; BLOCK_WORDS],
    pub list: [u32; PLACES],
}

impl Lent {
    fn new(Machine { places, objects }: Machine) -> Lent {
        Lent {
            places,
            objects,
            source: [0; BLOCK_WORDS],
            target: [0; BLOCK_WORDS],
            list: [0; PLACES],
        }
    }

    /// The four words of each place.
    pub fn rows(&self) -> &[[u32; PLACE_WIDTH]] {
        self.places.as_chunks().0
    }

    /// Number of live places.
    pub fn live(&self) -> u64 {
        self.rows().iter().filter(|row| row[1] != 0).count() as u64
    }

    /// Makes a hypercall of the root that must succeed.
    fn call(&mut self, call: Hypercall, arguments: [u32; 6]) {
        let (places, objects) = (&mut self.places, &mut self.objects);
        let reply = hypercall(
            call.number(),
            ROOT_EC,
            arguments,
            places,
            objects,
            &[],
            &mut [],
        );
        assert_eq!(reply.status, Status::Success);
    }

    /// Fills a null place as a delegation from its parent would; says whether it was null.
    fn lend(&mut self, parent: u32, child: u32) -> bool {
        let (rows, _) = self.places.as_chunks_mut::<PLACE_WIDTH>();
        let [resource, permissions, _, depth] = rows[parent as usize];
        let row = &mut rows[child as usize];
        let null = row[1] == 0;
        if null {
            *row = [resource, permissions, parent + 1, depth + 1];
        }
        null
    }
}

/// The number of a place.
pub fn place(domain: u32, space: Space, selector: u32) -> u32 {
    domain * DOMAIN_PLACES + SPACE_START[space as usize] + selector
}

/// The tables of boot.
pub fn boot() -> Lent {
    Lent::new(Machine::boot())
}

/// The tables that a journal of a kind, a seed and so many records leaves.
fn after(kind: Kind, seed: u64, records: usize) -> Lent {
    let bytes = journal(kind, seed, records);
    let mut replay = Replay::new(&bytes);
    while let Step::Ran(..) = replay.step() {}
    Lent::new(replay.machine)
}

/// The root's selectors of an EC and of a portal to it.
const EC: u32 = ROOT_SELECTOR + 3;
pub const PORTAL: u32 = EC + 1;

/// The tables of boot with a portal of the root to another EC.
pub fn with_portal() -> Lent {
    let mut lent = boot();
    lent.call(Hypercall::CreateEc, [EC, ROOT_SELECTOR, 0, 0, 0, 0]);
    lent.call(Hypercall::CreatePt, [PORTAL, ROOT_SELECTOR, EC, 0, 0, 0]);
    lent
}

/// With this seed a CALL of the root still finds null pages to fill.
pub fn mixed() -> Lent {
    after(Kind::Mixed, 6, 2_000)
}

pub fn deep() -> Lent {
    after(Kind::Deep, 1, 2_000)
}

/// With this seed a CALL of the root still finds null pages to fill.
pub fn full() -> Lent {
    after(Kind::Full, 4, 4_000)
}

/// The full tables with all places live from domain 1 on: every domain holds all pages and
/// ports, lent down a line from domain 0, and at its null object selectors a semaphore of domain 0.
pub fn crowded() -> Lent {
    let mut lent = full();
    for space in [Space::Memory, Space::Io] {
        for selector in 0..space.selectors() {
            let line = (0..DOMAINS).map(|domain| place(domain, space, selector) as usize);
            for child in line.skip(1) {
                lent.places[child * PLACE_WIDTH..][..PLACE_WIDTH].fill(0);
                lent.lend(child as u32 - DOMAIN_PLACES, child as u32);
            }
        }
    }
    let semaphore = place(0, Space::Object, LENT_OUT);
    for domain in 1..DOMAINS {
        for selector in 0..Space::Object.selectors() {
            lent.lend(semaphore, place(domain, Space::Object, selector));
        }
    }
    lent
}

/// The root's place whose heirs are counted below: its first page.
pub const ORIGIN: u32 = DOMAIN_PLACES;

/// A page, a port and an interrupt semaphore of domain 0.
const LENT_OUT: u32 = 4;

/// Tables with all domains, where in each space domain 0 lends to the root's first
/// selector, a line goes on from there through the last domain, and at most `most`
/// null places are filled from its end, all at `depth`, which is at least 2. The root
/// has given up the two pages that boot lends it.
pub fn lent_out(most: usize, depth: u32) -> Lent {
    let mut lent = boot();
    let pages = Descriptor::new(Space::Memory, UTCB_PAGE, 1, FULL_MASK).word();
    lent.call(Hypercall::Revoke, [pages, 1, 0, 0, 0, 0]);
    for selector in ROOT_SELECTOR + 3..ROOT_SELECTOR + DOMAINS + 1 {
        lent.call(Hypercall::CreatePd, [selector, ROOT_SELECTOR, 0, 0, 0, 0]);
    }
    let ends = Space::ALL.map(|space| {
        let mut end = place(1, space, 0);
        lent.lend(place(0, space, LENT_OUT), end);
        for selector in 0..depth - 2 {
            let next = place(DOMAINS - 1, space, selector);
            lent.lend(end, next);
            end = next;
        }
        (space, end)
    });
    let mut left = most;
    for (domain, (space, end)) in (1..DOMAINS).flat_map(|domain| ends.map(|end| (domain, end))) {
        for selector in 0..space.selectors() {
            if left > 0 && lent.lend(end, place(domain, space, selector)) {
                left -= 1;
            }
        }
    }
    lent
}
