//! A booted machine with short ways to make calls and look at places.

use model::journal::Machine;
use model::{Reply, Status};

pub const CALL: u32 = 0;
pub const CREATE_PD: u32 = 2;
pub const CREATE_EC: u32 = 3;
pub const CREATE_SC: u32 = 4;
pub const CREATE_PT: u32 = 5;
pub const CREATE_SM: u32 = 6;
pub const REVOKE: u32 = 7;
pub const LOOKUP: u32 = 8;
pub const SM_CTRL: u32 = 11;

pub const MEMORY: u32 = 0;
pub const IO: u32 = 1;
pub const OBJECT: u32 = 2;

/// Places of one domain and of all.
pub const DOMAIN_PLACES: u32 = 384;
pub const PLACES: u32 = 3072;

/// By space: where it starts among a domain's places, its selectors, and the order of all of it.
pub const STARTS: [u32; 3] = [0, 64, 128];
pub const SELECTORS: [u32; 3] = [64, 64, 256];
pub const ORDERS: [u32; 3] = [6, 6, 8];

/// The greatest depth.
pub const DEPTH_LIMIT: u32 = 63;

pub const ROOT_EC: u32 = 29;
pub const NULL: [u32; 4] = [0; 4];

/// The pages that boot lends the root, each its own selector, with the root's permissions.
pub const ROOT_PAGES: [(u32, u32); 2] = [(62, 3), (63, 1)];

/// Bits of an item's second word.
pub const TRANSLATE: u32 = 0;
pub const DELEGATE: u32 = 1;
pub const FROM_HYPERVISOR: u32 = 1 << 11;

/// A memory descriptor whose base is not aligned.
pub const MALFORMED: u32 = range(MEMORY, 2, 2, 31);

/// A descriptor word from its fields.
pub const fn range(space: u32, base: u32, order: u32, mask: u32) -> u32 {
    base << 12 | order << 7 | mask << 2 | (space + 1)
}

/// A delegate item's second word with a hotspot.
pub const fn hot(hotspot: u32) -> u32 {
    hotspot << 12 | DELEGATE
}

pub const fn place(domain: u32, space: u32, selector: u32) -> u32 {
    domain * DOMAIN_PLACES + STARTS[space as usize] + selector
}

/// The space and the selector of a place.
pub fn within(place: u32) -> (u32, u32) {
    let rest = place % DOMAIN_PLACES;
    let space = [OBJECT, IO, MEMORY]
        .into_iter()
        .find(|&space| rest >= STARTS[space as usize])
        .expect("the first space starts at 0");
    (space, rest - STARTS[space as usize])
}

/// The words of a place after boot, as the manual lists them.
pub const fn listed_row(place: u32) -> [u32; 4] {
    match place {
        0..=63 => [place, 7, 0, 0],
        64..=127 => [place - 64, 1, 0, 0],
        128..=131 => [place - 128, 1, 0, 0],
        132..=155 => [place - 128, 3, 0, 0],
        446 => [62, 3, 63, 1],
        447 => [63, 1, 64, 1],
        544 => [28, 31, 0, 0],
        545 => [29, 7, 0, 0],
        546 => [30, 1, 0, 0],
        _ => NULL,
    }
}

/// The words of an object record after boot, as the manual lists them.
pub const fn listed_record(number: u32) -> [u32; 5] {
    match number {
        0..=3 => [3, 64, 0, 0, 0],
        4..=27 => [5, 0, 0, 0, 0],
        28 => [1, 1, 0, 0, 0],
        29 => [2, 1, 0, 0, 0],
        30 => [3, 29, 1, 10_000, 0],
        _ => [0; 5],
    }
}

/// The sender's block with untyped words 100, 101, .. and typed items.
pub fn message(untyped: u32, items: &[(u32, u32)]) -> [u32; 64] {
    let mut block = [0; 64];
    block[0] = untyped | (items.len() as u32) << 16;
    for word in 0..untyped.min(60) {
        block[4 + word as usize] = 100 + word;
    }
    for (item, (descriptor, second)) in items.iter().enumerate() {
        block[63 - 2 * item] = *descriptor;
        block[62 - 2 * item] = *second;
    }
    block
}

/// The receiver's block with its two windows; other words are marked.
pub fn windows(translate: u32, delegate: u32) -> [u32; 64] {
    let mut block = [0xaaaa_aaaa; 64];
    block[1] = translate;
    block[2] = delegate;
    block
}

#[derive(Clone)]
pub struct World {
    pub places: Vec<u32>,
    pub objects: Vec<u32>,
}

/// What `World::partners` makes, by object number.
pub const CHILD_EC: u32 = 32;
pub const ROOT_EC_2: u32 = 34;

/// Root selectors of what `World::partners` makes.
pub const CHILD_PD: u32 = 35;
pub const TO_CHILD: u32 = 37;
pub const TO_ROOT_2: u32 = 39;
pub const TO_ROOT: u32 = 40;
pub const FREE_SELECTOR: u32 = 50;

/// What the root has lent in `World::lenders`, by space and selector.
pub const LOANS: [(u32, u32); 4] = [(MEMORY, 8), (IO, 8), (OBJECT, 32), (OBJECT, TO_ROOT)];

impl World {
    pub fn boot() -> World {
        let machine = Machine::boot();
        World {
            places: machine.places.to_vec(),
            objects: machine.objects.to_vec(),
        }
    }

    /// The tables after boot, as the manual lists them.
    pub fn listed() -> World {
        World {
            places: (0..PLACES).flat_map(listed_row).collect(),
            objects: (0..64).flat_map(listed_record).collect(),
        }
    }

    /// The root and a child domain 2 that can call each other on CPU 0:
    /// objects 31 PD of domain 2, 32 its EC, 33 portal to 32, 34 second EC of
    /// the root, 35 portal to 34, 36 portal to 29; the child holds the last
    /// portal at the root's selector for it.
    pub fn partners() -> World {
        let mut world = World::boot();
        world.does(CREATE_PD, ROOT_EC, &[CHILD_PD, 32, 0]);
        world.does(CREATE_EC, ROOT_EC, &[36, CHILD_PD, 0, 0]);
        world.does(CREATE_PT, ROOT_EC, &[TO_CHILD, 32, 36, 0, 0, 0]);
        world.does(CREATE_EC, ROOT_EC, &[38, 32, 0, 0]);
        world.does(CREATE_PT, ROOT_EC, &[TO_ROOT_2, 32, 38, 0, 0, 0]);
        world.does(CREATE_PT, ROOT_EC, &[TO_ROOT, 32, 33, 0, 0, 0]);
        let portal = range(OBJECT, TO_ROOT, 0, 31);
        assert_eq!(world.gives(TO_CHILD, portal, portal, hot(0)), 1);
        world
    }

    /// The partners, where a semaphore, object 37, takes the place of the portal to 29, and the
    /// root lends it, its own PD, page 8 and port 8 to the child's same selectors.
    pub fn lenders() -> World {
        let mut world = World::partners();
        world.does(REVOKE, ROOT_EC, &[range(OBJECT, TO_ROOT, 0, 31), 1]);
        world.does(CREATE_SM, ROOT_EC, &[TO_ROOT, 32, 0]);
        for one in [range(MEMORY, 8, 0, 31), range(IO, 8, 0, 31)] {
            let taken = world.gives(TO_ROOT_2, one, one, hot(0) | FROM_HYPERVISOR);
            assert_eq!(taken, 1);
        }
        for (space, selector) in LOANS {
            let one = range(space, selector, 0, 31);
            assert_eq!(world.gives(TO_CHILD, one, one, hot(0)), 1);
        }
        world
    }

    /// Any hypercall, with blocks of length 0.
    pub fn call(&mut self, number: u32, caller: u32, arguments: &[u32]) -> (u32, u32) {
        self.call_with(number, caller, arguments, &[], &mut [])
    }

    pub fn call_with(
        &mut self,
        number: u32,
        caller: u32,
        arguments: &[u32],
        source: &[u32],
        target: &mut [u32],
    ) -> (u32, u32) {
        let mut words = [0; 6];
        words[..arguments.len()].copy_from_slice(arguments);
        let reply = model::hypercall(
            number,
            caller,
            words,
            &mut self.places,
            &mut self.objects,
            source,
            target,
        );
        (reply.status.number(), reply.answer)
    }

    /// A hypercall that must succeed; its answer.
    pub fn does(&mut self, number: u32, caller: u32, arguments: &[u32]) -> u32 {
        let (status, answer) = self.call(number, caller, arguments);
        assert_eq!(status, 0, "call {number} by {caller} with {arguments:?}");
        answer
    }

    /// A hypercall that must be refused with this status and change nothing.
    pub fn refuses(&mut self, number: u32, caller: u32, arguments: &[u32], status: Status) {
        let before = self.clone();
        let reply = self.call(number, caller, arguments);
        assert_eq!(
            reply,
            (status.number(), 0),
            "call {number} by {caller} with {arguments:?}"
        );
        assert!(*self == before, "a refused call changed a table");
    }

    /// A CALL that must succeed: the places filled and the receiver's block.
    pub fn sends(
        &mut self,
        caller: u32,
        portal: u32,
        source: [u32; 64],
        target: [u32; 64],
    ) -> (u32, [u32; 64]) {
        let mut target = target;
        let (status, answer) = self.call_with(CALL, caller, &[portal], &source, &mut target);
        assert_eq!(status, 0, "a message through portal {portal}");
        (answer, target)
    }

    /// A CALL that must be refused with this status and change nothing.
    pub fn refuses_call(
        &mut self,
        caller: u32,
        portal: u32,
        source: &[u32],
        target: &[u32],
        status: Status,
    ) {
        let before = self.clone();
        let mut after = target.to_vec();
        let reply = self.call_with(CALL, caller, &[portal], source, &mut after);
        assert_eq!(
            reply,
            (status.number(), 0),
            "a message through portal {portal}"
        );
        assert!(*self == before, "a refused message changed a table");
        assert_eq!(after, target, "a refused message changed a block");
    }

    /// One delegate item by the root; the number of places filled.
    pub fn gives(&mut self, portal: u32, item: u32, window: u32, second: u32) -> u32 {
        self.sends(
            ROOT_EC,
            portal,
            message(0, &[(item, second)]),
            windows(0, window),
        )
        .0
    }

    /// One item: the received descriptor and second word.
    pub fn shows(
        &mut self,
        caller: u32,
        portal: u32,
        item: (u32, u32),
        target: [u32; 64],
    ) -> (u32, u32) {
        let (_, block) = self.sends(caller, portal, message(0, &[item]), target);
        (block[63], block[62])
    }

    pub fn row(&self, place: u32) -> [u32; 4] {
        let start = place as usize * 4;
        self.places[start..start + 4]
            .try_into()
            .expect("four words")
    }

    pub fn set_row(&mut self, place: u32, row: [u32; 4]) {
        let start = place as usize * 4;
        self.places[start..start + 4].copy_from_slice(&row);
    }

    pub fn record(&self, number: u32) -> [u32; 5] {
        let start = number as usize * 5;
        self.objects[start..start + 5]
            .try_into()
            .expect("five words")
    }

    pub fn set_record(&mut self, number: u32, record: [u32; 5]) {
        let start = number as usize * 5;
        self.objects[start..start + 5].copy_from_slice(&record);
    }

    pub fn census(&self, place: u32, list: &mut [u32]) -> Reply {
        model::census(place, &self.places, &self.objects, list)
    }

    /// The strict descendants of a live place.
    pub fn heirs(&self, place: u32) -> Vec<u32> {
        let mut list = vec![0; PLACES as usize];
        let reply = self.census(place, &mut list);
        assert_eq!(reply.status, Status::Success);
        list.truncate(reply.answer as usize);
        list
    }
}

impl PartialEq for World {
    fn eq(&self, other: &World) -> bool {
        self.places == other.places && self.objects == other.objects
    }
}
