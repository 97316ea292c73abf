//! Journals of any length whose calls stay alike from the first to the last.
//! The model's random journals wear out: sooner or later the root has revoked
//! its own portals, no record is free for others, and no CALL succeeds.

use model::boot::{ROOT_EC, ROOT_PD, ROOT_SELECTOR};
use model::descriptor::{Descriptor, FULL_MASK};
use model::journal::Record;
use model::layout::{BLOCK_WORDS, DOMAINS, HEADER_WORDS};
use model::random::Random;
use model::tables::Space;
use model::Hypercall;

/// Root selectors: of the PDs and ECs of the domains from 2 on, of the portals to the
/// ECs of the domains from 1 on, which every domain has there, and of a semaphore.
const PDS: u32 = 35;
const ECS: u32 = 41;
const PORTALS: u32 = 48;
const PORTALS_ORDER: u32 = 3;
const SEMAPHORE: u32 = 56;

/// Bits of an item's second word.
pub const DELEGATE: u32 = 1;
pub const FROM_HYPERVISOR: u32 = 1 << 11;
const HOTSPOT_SHIFT: u32 = 12;

/// The domains from 2 on.
const CHILDREN: u32 = DOMAINS - 2;

/// The object number of a domain's EC: after the root's objects come the PDs, then the ECs.
const fn ec(domain: u32) -> u32 {
    match domain {
        1 => ROOT_EC,
        _ => ROOT_PD + 3 + CHILDREN + domain - 2,
    }
}

struct Writer {
    random: Random,
    bytes: Vec<u8>,
    left: usize,
}

/// A journal of so many records: all domains are set up, then pages and ports are lent
/// between them, shown and taken back, selectors looked up and a semaphore counted.
pub fn steady(records: usize) -> Vec<u8> {
    let mut writer = Writer {
        random: Random::new(1),
        bytes: Vec::new(),
        left: records,
    };
    writer.settle();
    while writer.left > 0 {
        writer.step();
    }
    writer.bytes
}

impl Writer {
    fn write(&mut self, record: &Record) {
        if let Some(left) = self.left.checked_sub(1) {
            self.left = left;
            record.write(&mut self.bytes);
        }
    }

    fn call(&mut self, call: Hypercall, domain: u32, arguments: [u32; 6]) {
        let mut record = Record::empty(call);
        record.caller = ec(domain);
        record.arguments = arguments;
        self.write(&record);
    }

    fn settle(&mut self) {
        let pd = ROOT_SELECTOR;
        for child in 0..CHILDREN {
            self.call(Hypercall::CreatePd, 1, [PDS + child, pd, 0, 0, 0, 0]);
        }
        for child in 0..CHILDREN {
            let arguments = [ECS + child, PDS + child, 0, 0, 0, 0];
            self.call(Hypercall::CreateEc, 1, arguments);
        }
        let ecs = [ROOT_SELECTOR + 1].into_iter().chain(ECS..ECS + CHILDREN);
        for (portal, ec) in (PORTALS..).zip(ecs) {
            self.call(Hypercall::CreatePt, 1, [portal, pd, ec, 0, 0, 0]);
        }
        self.call(Hypercall::CreateSm, 1, [SEMAPHORE, pd, 0, 0, 0, 0]);
        let portals = Descriptor::new(Space::Object, PORTALS, PORTALS_ORDER, FULL_MASK).word();
        for domain in 2..DOMAINS {
            self.message(1, domain, 0, portals, &[(portals, DELEGATE)]);
        }
    }

    /// A CALL with windows and items: descriptor and second word.
    fn message(
        &mut self,
        from: u32,
        to: u32,
        translate_window: u32,
        delegate_window: u32,
        items: &[(u32, u32)],
    ) {
        let mut record = Record::empty(Hypercall::Call);
        record.caller = ec(from);
        record.arguments[0] = PORTALS + to - 1;
        record.target[1] = translate_window;
        record.target[2] = delegate_window;
        let untyped = self.random.below(9);
        record.source[0] = untyped | (items.len() as u32) << 16;
        for word in &mut record.source[HEADER_WORDS..HEADER_WORDS + untyped as usize] {
            *word = self.random.word();
        }
        for (index, &(descriptor, second)) in items.iter().enumerate() {
            let end = BLOCK_WORDS - 2 * index;
            record.source[end - 2..end].copy_from_slice(&[second, descriptor]);
        }
        self.write(&record);
    }

    fn domain(&mut self) -> u32 {
        1 + self.random.below(DOMAINS - 1)
    }

    fn pages_or_ports(&mut self) -> Space {
        if self.random.percent(60) {
            Space::Memory
        } else {
            Space::Io
        }
    }

    /// A range of an order below a limit, with all mask bits or with some up to a greatest mask.
    fn range(&mut self, space: Space, orders: u32, greatest: u32) -> u32 {
        let order = self.random.below(orders);
        let base = self.random.below(space.selectors()) >> order << order;
        let mask = if self.random.percent(65) {
            FULL_MASK
        } else {
            1 + self.random.below(greatest)
        };
        Descriptor::new(space, base, order, mask).word()
    }

    /// A CALL to another domain with one to four items, most of them delegations.
    fn lend(&mut self) {
        let from = self.domain();
        let to = 1 + (from + self.random.below(DOMAINS - 2)) % (DOMAINS - 1);
        let space = self.pages_or_ports();
        let window = Descriptor::new(space, 0, space.order_limit(), FULL_MASK).word();
        let items: Vec<(u32, u32)> = (0..1 + self.random.below(4))
            .map(|_| {
                let range = self.range(space, 4, FULL_MASK);
                let hotspot = self.random.below(space.selectors()) << HOTSPOT_SHIFT;
                let second = match self.random.below(10) {
                    0..=2 => 0,
                    _ if from == 1 => hotspot | FROM_HYPERVISOR | DELEGATE,
                    _ => hotspot | DELEGATE,
                };
                (range, second)
            })
            .collect();
        self.message(from, to, window, window, &items);
    }

    fn step(&mut self) {
        match self.random.below(100) {
            0..=44 => self.lend(),
            45..=59 => {
                let (domain, space) = (self.domain(), self.pages_or_ports());
                // A mask without a permission of the space would be refused.
                let range = self.range(space, 5, space.greatest_permissions());
                let self_word = self.random.below(2);
                self.call(Hypercall::Revoke, domain, [range, self_word, 0, 0, 0, 0]);
            }
            60..=79 => {
                let domain = self.domain();
                let space = self.random.pick(&Space::ALL).unwrap_or(Space::Memory);
                let range = self.range(space, 1, FULL_MASK);
                self.call(Hypercall::Lookup, domain, [range, 0, 0, 0, 0, 0]);
            }
            80..=94 => {
                let operation = self.random.below(2);
                let arguments = [SEMAPHORE, operation, 0, 0, 0, 0];
                self.call(Hypercall::SmCtrl, 1, arguments);
            }
            // Refused: the selector is taken.
            _ => {
                let arguments = [SEMAPHORE, ROOT_SELECTOR, 0, 0, 0, 0];
                self.call(Hypercall::CreateSm, 1, arguments);
            }
        }
    }
}
