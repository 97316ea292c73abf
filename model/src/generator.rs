//! Random journals that mean something: the model runs along while a journal
//! is made, so that calls name places that are live, portals that can be
//! called and ranges that have ancestors; a share of them is then spoilt.

use crate::boot::{INFORMATION_PAGE, ROOT_EC, ROOT_SELECTOR, UTCB_PAGE};
use crate::calls::Hypercall;
use crate::descriptor::{Descriptor, FULL_MASK};
use crate::journal::{body_bytes, Machine, Record};
use crate::layout::{
    CPUS, DATA_WORDS, DEPTH_LIMIT, DOMAINS, DOMAIN_PLACES, HEADER_WORDS, OBJECTS, OBJECT_WIDTH,
    PLACE_WIDTH, SPACE_START,
};
use crate::random::Random;
use crate::tables::{ObjectKind, Space, BIND_PT, BIND_SC, CALL_PT, FREE};

/// What a journal dwells on.
#[derive(Clone, Copy, PartialEq, Eq, Debug)]
pub enum Kind {
    /// Every call, in several domains.
    Mixed,
    /// Delegations down to the depth limit, with translations and revocations of them.
    Deep,
    /// All domains and all object records in use.
    Full,
    /// Words without regard to the tables.
    Junk,
    /// All object records in use while domains are left.
    Spent,
    /// Delegations that ask for the hypervisor's places, by the root and by others.
    Flagged,
    /// Delegations inside one domain, from ranges that overlap their windows, and
    /// revocations of ranges that hold a place and its descendants.
    Within,
    /// Messages with null items, for every reason and for several at once.
    Null,
    /// The pages that boot lends the root: handed on, shown to it again, revoked, asked for
    /// again and looked up.
    Pages,
}

impl Kind {
    pub const ALL: [Kind; 9] = [
        Kind::Mixed,
        Kind::Deep,
        Kind::Full,
        Kind::Junk,
        Kind::Spent,
        Kind::Flagged,
        Kind::Within,
        Kind::Null,
        Kind::Pages,
    ];

    pub const fn name(self) -> &'static str {
        match self {
            Kind::Mixed => "mixed",
            Kind::Deep => "deep",
            Kind::Full => "full",
            Kind::Junk => "junk",
            Kind::Spent => "spent",
            Kind::Flagged => "flagged",
            Kind::Within => "within",
            Kind::Null => "null",
            Kind::Pages => "pages",
        }
    }

    pub fn from_name(name: &str) -> Option<Kind> {
        Kind::ALL.into_iter().find(|kind| kind.name() == name)
    }
}

/// A journal of so many whole records, some with a cut or bad record after
/// them. The same arguments give the same bytes.
pub fn journal(kind: Kind, seed: u64, records: usize) -> Vec<u8> {
    let mut generator = Generator {
        random: Random::new(seed ^ ((kind as u64) << 56)),
        machine: Machine::boot(),
        bytes: Vec::new(),
        left: records,
    };
    match kind {
        Kind::Mixed => {
            let children = 1 + generator.random.below(5);
            generator.settle(children, 25);
        }
        Kind::Deep => {
            let children = 1 + generator.random.below(3);
            generator.settle(children, 0);
            generator.begin_lines(children);
        }
        Kind::Full => generator.settle(DOMAINS - 2, 10),
        Kind::Junk => {}
        Kind::Spent | Kind::Within => generator.settle(1, 0),
        Kind::Flagged | Kind::Null => generator.settle(3, 0),
        Kind::Pages => generator.settle(2, 0),
    }
    while generator.left > 0 {
        generator.step(kind);
    }
    generator.finish()
}

/// An execution context as its record tells.
#[derive(Clone, Copy)]
struct Context {
    number: u32,
    domain: u32,
    cpu: u32,
}

/// The root execution context at boot.
const ROOT: Context = Context {
    number: ROOT_EC,
    domain: 1,
    cpu: 0,
};

/// Root selectors that the first calls of a journal fill: PDs, then their ECs,
/// and further up the portals to those ECs and to two ECs of the root.
pub const PD_SELECTOR: u32 = 35;
pub const EC_SELECTOR: u32 = 42;
pub const PT_SELECTOR: u32 = 200;
const PT_ORDER: u32 = 3;
pub const ROOT_SECOND_EC: u32 = 41;

/// The kinds of objects; all but the first can be had in any number.
const OBJECT_KINDS: [ObjectKind; 5] = [
    ObjectKind::Pd,
    ObjectKind::Ec,
    ObjectKind::Sc,
    ObjectKind::Pt,
    ObjectKind::Sm,
];

/// Bits of an item's second word.
const DELEGATE: u32 = 1;
const HYPERVISOR: u32 = 1 << 11;
const HOTSPOT_SHIFT: u32 = 12;

/// Bits of a descriptor's base, and of a hotspot.
const FIELD_BITS: u32 = 20;

struct Generator {
    random: Random,
    machine: Machine,
    bytes: Vec<u8>,
    left: usize,
}

/// A typed item: descriptor and second word.
type Item = (u32, u32);

impl Generator {
    // What the tables hold.

    fn row(&self, domain: u32, space: Space, selector: u32) -> [u32; PLACE_WIDTH] {
        let place = domain * DOMAIN_PLACES + SPACE_START[space as usize] + selector;
        let start = place as usize * PLACE_WIDTH;
        std::array::from_fn(|word| self.machine.places[start + word])
    }

    fn record(&self, number: u32) -> [u32; OBJECT_WIDTH] {
        let start = number as usize * OBJECT_WIDTH;
        std::array::from_fn(|word| self.machine.objects[start + word])
    }

    fn contexts(&self) -> Vec<Context> {
        let all = (0..OBJECTS as u32).map(|number| (number, self.record(number)));
        all.filter(|(_, record)| record[0] == ObjectKind::Ec as u32)
            .map(|(number, record)| Context {
                number,
                domain: record[1],
                cpu: record[2],
            })
            .collect()
    }

    /// Selectors of a space whose places are live, or null.
    fn selectors(&self, domain: u32, space: Space, live: bool) -> Vec<u32> {
        let all = 0..space.selectors();
        all.filter(|&selector| (self.row(domain, space, selector)[1] != 0) == live)
            .collect()
    }

    /// Selectors that name objects of a kind with a permission.
    fn named(&self, domain: u32, kind: ObjectKind, permission: u32) -> Vec<u32> {
        let live = self.selectors(domain, Space::Object, true);
        let good = |&selector: &u32| {
            let [resource, permissions, ..] = self.row(domain, Space::Object, selector);
            permissions & permission != 0 && self.record(resource)[0] == kind as u32
        };
        live.into_iter().filter(good).collect()
    }

    /// Portals that an execution context can call through, with the callees.
    fn portals(&self, caller: Context) -> Vec<(u32, Context)> {
        let contexts = self.contexts();
        let portals = self.named(caller.domain, ObjectKind::Pt, CALL_PT);
        let callee = |selector: u32| {
            let portal = self.row(caller.domain, Space::Object, selector)[0];
            let ec = self.record(portal)[1];
            contexts
                .iter()
                .copied()
                .find(|context| context.number == ec)
        };
        portals
            .into_iter()
            .filter_map(|selector| Some((selector, callee(selector)?)))
            .filter(|(_, callee)| callee.number != caller.number && callee.cpu == caller.cpu)
            .collect()
    }

    /// The nearest ancestor's selector in a domain.
    fn ancestor(&self, domain: u32, space: Space, selector: u32, wanted: u32) -> Option<u32> {
        let mut parent = self.row(domain, space, selector)[2];
        loop {
            let place = parent.checked_sub(1)?;
            let (above, within) = (place / DOMAIN_PLACES, place % DOMAIN_PLACES);
            let above_selector = within - SPACE_START[space as usize];
            if above == wanted {
                return Some(above_selector);
            }
            parent = self.row(above, space, above_selector)[2];
        }
    }

    // Writing records.

    /// Writes a record and runs it, unless the journal is long enough already.
    fn run(&mut self, mut record: Record) {
        if let Some(left) = self.left.checked_sub(1) {
            self.left = left;
            record.write(&mut self.bytes);
            self.machine.run(&mut record);
        }
    }

    fn make(&self, hypercall: Hypercall, caller: u32, arguments: &[u32]) -> Record {
        let mut record = Record::empty(hypercall);
        record.caller = caller;
        for (word, argument) in record.arguments.iter_mut().zip(arguments) {
            *word = *argument;
        }
        record
    }

    fn finish(mut self) -> Vec<u8> {
        match self.random.below(10) {
            0 => {
                let unbuilt = [1, 9, 10, 12, 64, 127, 128, 255];
                self.bytes.extend(self.random.pick(&unbuilt));
                let rest = self.random.below(20);
                self.bytes.extend((0..rest).map(|byte| byte as u8));
            }
            1 | 2 => {
                if let Some(hypercall) = self.random.pick(&Hypercall::ALL) {
                    self.bytes.push(hypercall.number() as u8);
                    let rest = self.random.below(body_bytes(hypercall) as u32);
                    self.bytes.extend((0..rest).map(|byte| byte as u8));
                }
            }
            _ => {}
        }
        self.bytes
    }

    // Words.

    /// A word at some edge, or any word.
    fn odd_word(&mut self) -> u32 {
        let small = [0, 1, 2, 31, 32, 63, 64, 65, 127, 128, 255, 256, 257];
        let edges = [&small[..], &[1 << 31, u32::MAX - 1, u32::MAX]].concat();
        if self.random.percent(60) {
            self.random.pick(&edges).unwrap_or(0)
        } else {
            self.random.word() >> self.random.below(32)
        }
    }

    fn space(&mut self) -> Space {
        match self.random.below(10) {
            0..=3 => Space::Memory,
            4..=5 => Space::Io,
            _ => Space::Object,
        }
    }

    fn mask(&mut self) -> u32 {
        if self.random.percent(65) {
            FULL_MASK
        } else {
            self.random.below(FULL_MASK + 1)
        }
    }

    /// A small order, at times any of a space, rarely one that is out of its bounds.
    fn order(&mut self, space: Space) -> u32 {
        let limit = space.order_limit();
        match self.random.below(20) {
            0..=7 => 0,
            8..=12 => 1,
            13..=14 => 2,
            15 => 3,
            16 => 4,
            // The whole space or half of it.
            17 => limit - self.random.below(2),
            18 => self.random.below(limit + 1),
            _ => self.random.below(limit + 3),
        }
    }

    /// The widest order in so many cases of a hundred, else a small one.
    fn wide_order(&mut self, space: Space, chance: u32) -> u32 {
        if self.random.percent(chance) {
            space.order_limit()
        } else {
            self.order(space)
        }
    }

    /// A number of so many bits that wraps to a selector of a space.
    fn turned(&mut self, selector: u32, space: Space, bits: u32) -> u32 {
        let turns = 1 << (bits - space.order_limit());
        selector + self.random.below(turns) * space.selectors()
    }

    /// A descriptor of the aligned range around a selector.
    fn around(&mut self, space: Space, selector: u32, order: u32, mask: u32) -> u32 {
        let base = selector >> order << order;
        let base = match space {
            Space::Object if self.random.percent(10) => self.turned(base, space, FIELD_BITS),
            _ => base,
        };
        Descriptor::new(space, base, order, mask).word()
    }

    /// A descriptor of some range, mostly well-formed.
    fn some_descriptor(&mut self, domain: u32) -> u32 {
        let space = self.space();
        self.descriptor_in(domain, space)
    }

    /// A descriptor of some range of a space, mostly well-formed.
    fn descriptor_in(&mut self, domain: u32, space: Space) -> u32 {
        let order = self.order(space);
        let mask = self.mask();
        match self.random.below(20) {
            0 => self.random.word(),
            1 => self.random.word() & !3,
            2 => {
                // The base may not be aligned, or lie past the space.
                let base = self.random.below(space.selectors() * 5 / 4);
                Descriptor::new(space, base, order, mask).word()
            }
            _ => {
                let live = self.selectors(domain, space, true);
                let anywhere = self.random.below(space.selectors());
                let selector = self.random.pick(&live).unwrap_or(anywhere);
                self.around(space, selector, order, mask)
            }
        }
    }

    /// A malformed descriptor: its order too large, its end past the space's or its base not aligned.
    fn malformed_descriptor(&mut self) -> u32 {
        let space = self.space();
        let limit = space.order_limit();
        let selector = self.random.below(space.selectors());
        let (base, order) = match self.random.below(3) {
            0 => (selector, limit + 1 + self.random.below(31 - limit)),
            // Object bases wrap, so no object range ends past the space.
            1 if space != Space::Object => {
                let order = self.random.below(limit + 1);
                let past = space.selectors() + selector;
                (past >> order << order, order)
            }
            _ => (selector | 1, 1 + self.random.below(limit)),
        };
        let mask = self.mask();
        Descriptor::new(space, base, order, mask).word()
    }

    /// An object selector word, at times past the end of the space.
    fn selector_word(&mut self, selector: u32) -> u32 {
        if self.random.percent(5) {
            self.turned(selector, Space::Object, u32::BITS)
        } else {
            selector
        }
    }

    fn null_selector(&mut self, domain: u32) -> u32 {
        let null = self.selectors(domain, Space::Object, false);
        let anywhere = self.random.below(Space::Object.selectors());
        let selector = self.random.pick(&null).unwrap_or(anywhere);
        self.selector_word(selector)
    }

    fn named_selector(&mut self, domain: u32, kind: ObjectKind, permission: u32) -> u32 {
        let named = self.named(domain, kind, permission);
        let anywhere = self.random.below(Space::Object.selectors());
        let selector = self.random.pick(&named).unwrap_or(anywhere);
        self.selector_word(selector)
    }

    fn qpd(&mut self) -> u32 {
        let priority = 1 + self.random.below(255);
        let quantum = 1 + self.random.below((1 << 20) - 1);
        let ignored = self.random.below(16) << 8;
        match self.random.below(12) {
            0 => quantum << 12 | ignored,
            1 => priority | ignored,
            _ => priority | ignored | quantum << 12,
        }
    }

    fn caller(&mut self) -> Context {
        let contexts = self.contexts();
        if self.random.percent(40) {
            ROOT
        } else {
            self.random.pick(&contexts).unwrap_or(ROOT)
        }
    }

    /// An execution context whose domain holds the deepest capability that can still be handed on.
    fn deepest_caller(&mut self, space: Space) -> Context {
        let contexts = self.contexts();
        let depth = |domain: u32| {
            let depths =
                (0..space.selectors()).map(|selector| self.row(domain, space, selector)[3]);
            depths.filter(|&depth| depth < DEPTH_LIMIT).max()
        };
        let depths: Vec<Option<u32>> = contexts
            .iter()
            .map(|context| depth(context.domain))
            .collect();
        let most = depths.iter().max().copied().flatten();
        let best = contexts
            .iter()
            .zip(&depths)
            .filter(|(_, &depth)| depth == most);
        let best: Vec<Context> = best.map(|(context, _)| *context).collect();
        self.random.pick(&best).unwrap_or(ROOT)
    }

    /// The deepest live place of a domain's space, mostly of those that can still be handed on.
    fn deepest(&mut self, domain: u32, space: Space) -> Option<u32> {
        let below_limit = self.random.percent(80);
        let depth = |&selector: &u32| self.row(domain, space, selector)[3];
        let usable = |selector: &u32| !below_limit || depth(selector) < DEPTH_LIMIT;
        let live = self.selectors(domain, space, true).into_iter();
        live.filter(usable).max_by_key(depth)
    }

    /// A portal of the root to another of its execution contexts.
    fn portal_within(&mut self) -> Option<u32> {
        let portals = self.portals(ROOT).into_iter();
        let own: Vec<(u32, Context)> = portals.filter(|(_, callee)| callee.domain == 1).collect();
        self.random.pick(&own).map(|(portal, _)| portal)
    }

    // Calls.

    /// Creates domains below the root, an execution context in each, and
    /// portals to all of them in every domain.
    fn settle(&mut self, children: u32, other_cpu: u32) {
        for child in 0..children {
            let limit = Space::Object.order_limit();
            let order = self.wide_order(Space::Object, 10).min(limit);
            let mask = self.mask();
            let initial = match self.random.below(4) {
                0 => Descriptor::NULL.word(),
                _ => self.around(Space::Object, ROOT_SELECTOR, order, mask),
            };
            let record = self.make(
                Hypercall::CreatePd,
                ROOT_EC,
                &[PD_SELECTOR + child, ROOT_SELECTOR, initial],
            );
            self.run(record);
        }
        let pds = (0..children).map(|child| (EC_SELECTOR + child, PD_SELECTOR + child));
        for (new, pd) in pds.chain([(ROOT_SECOND_EC, ROOT_SELECTOR)]) {
            let cpu = if self.random.percent(other_cpu) {
                self.random.below(CPUS)
            } else {
                0
            };
            let event_base = self.odd_word();
            let record = self.make(Hypercall::CreateEc, ROOT_EC, &[new, pd, cpu, event_base]);
            self.run(record);
        }
        let ecs = (0..children).map(|child| EC_SELECTOR + child);
        for (offset, ec) in ecs.chain([ROOT_SECOND_EC, ROOT_SELECTOR + 1]).enumerate() {
            let words = [self.odd_word(), self.odd_word(), self.odd_word()];
            let new = PT_SELECTOR + offset as u32;
            let [mtd, ip, identifier] = words;
            let record = self.make(
                Hypercall::CreatePt,
                ROOT_EC,
                &[new, ROOT_SELECTOR, ec, mtd, ip, identifier],
            );
            self.run(record);
        }
        let portals = Descriptor::new(Space::Object, PT_SELECTOR, PT_ORDER, FULL_MASK).word();
        for child in 0..children {
            let record = self.message(
                ROOT,
                PT_SELECTOR + child,
                0,
                portals,
                &[(portals, DELEGATE)],
            );
            self.run(record);
        }
    }

    /// Gives the first child a place of domain 0 in each space, which it hands on to the root:
    /// from there on a line has an ancestor in another domain than the root.
    fn begin_lines(&mut self, children: u32) {
        let mut contexts = self.contexts().into_iter();
        let Some(child) = contexts.find(|context| context.domain == 2) else {
            return;
        };
        let to_root = PT_SELECTOR + children;
        for space in Space::ALL {
            let window = self.around(space, 0, space.order_limit(), FULL_MASK);
            let mut source = self.selectors(0, space, true);
            let hops = [
                (ROOT, PT_SELECTOR, child.domain, HYPERVISOR | DELEGATE),
                (child, to_root, ROOT.domain, DELEGATE),
            ];
            for (caller, portal, receiver, second) in hops {
                let from = self.random.pick(&source).unwrap_or(0);
                let descriptor = self.around(space, from, 0, FULL_MASK);
                let null = self.selectors(receiver, space, false);
                let to = self.random.pick(&null).unwrap_or(from);
                let item = (descriptor, to << HOTSPOT_SHIFT | second);
                let record = self.message(caller, portal, 0, window, &[item]);
                self.run(record);
                source = vec![to];
            }
        }
    }

    /// A CALL with these windows and items, and some untyped words.
    fn message(
        &mut self,
        caller: Context,
        portal: u32,
        translate_window: u32,
        delegate_window: u32,
        items: &[Item],
    ) -> Record {
        let mut record = self.make(Hypercall::Call, caller.number, &[portal]);
        record.source.fill_with(|| self.random.word());
        record.target.fill_with(|| self.random.word());
        record.target[1] = translate_window;
        record.target[2] = delegate_window;
        let room = (DATA_WORDS - 2 * items.len()) as u32;
        let untyped = self.random.below(room + 1);
        record.source[0] = untyped | (items.len() as u32) << 16;
        let slots = record.source[HEADER_WORDS..].rchunks_exact_mut(2);
        for (slot, (descriptor, second)) in slots.zip(items) {
            slot[1] = *descriptor;
            slot[0] = *second;
        }
        record
    }

    /// The bits of a second word that are ignored, at times set.
    fn ignored_bits(&mut self) -> u32 {
        if self.random.percent(20) {
            self.random.word() & 0x7fe
        } else {
            0
        }
    }

    /// A delegate item of a live source place, towards a null place of the window.
    fn delegate_item(
        &mut self,
        sender: u32,
        receiver: u32,
        space: Space,
        order: u32,
        deepest: bool,
    ) -> Item {
        let chance = if deepest { 8 } else { 35 };
        let hypervisor = sender == 1
            && (self.random.percent(chance) || self.selectors(1, space, true).is_empty());
        let from = if hypervisor { 0 } else { sender };
        let source = if deepest {
            self.deepest(from, space)
        } else {
            let live = self.selectors(from, space, true);
            self.random.pick(&live)
        };
        let anywhere = self.random.below(space.selectors());
        let source = source.unwrap_or(anywhere);
        let null = self.selectors(receiver, space, false);
        let destination = self.random.pick(&null).unwrap_or(anywhere);
        let mask = if deepest && self.random.percent(75) {
            FULL_MASK
        } else {
            self.mask()
        };
        let descriptor = self.around(space, source, order, mask);
        let hotspot = if order <= 2 { destination } else { source };
        let flags = if hypervisor || self.random.percent(5) {
            HYPERVISOR
        } else {
            0
        };
        let hotspot = if self.random.percent(20) {
            self.turned(hotspot, space, FIELD_BITS)
        } else {
            hotspot
        };
        let hotspot = hotspot << HOTSPOT_SHIFT;
        (descriptor, hotspot | flags | self.ignored_bits() | DELEGATE)
    }

    /// A delegate item within a domain, of the place that the item before may just have filled.
    fn chained_item(&mut self, domain: u32, space: Space, (_, second): Item) -> Item {
        let source = (second >> HOTSPOT_SHIFT) % space.selectors();
        let null = self.selectors(domain, space, false);
        let destination = self.random.pick(&null).unwrap_or(source);
        let mask = self.mask();
        let descriptor = self.around(space, source, 0, mask);
        (descriptor, destination << HOTSPOT_SHIFT | DELEGATE)
    }

    /// A translate item: mostly of a place that came from the receiver's domain.
    fn translate_item(
        &mut self,
        sender: u32,
        receiver: u32,
        space: Space,
        deepest: bool,
    ) -> (Item, u32) {
        let live = self.selectors(sender, space, true);
        let came = |&selector: &u32| self.ancestor(sender, space, selector, receiver).is_some();
        let inherited: Vec<u32> = live.iter().copied().filter(came).collect();
        let choice = if self.random.percent(80) {
            &inherited
        } else {
            &live
        };
        let anywhere = self.random.below(space.selectors());
        let (selector, order) = if deepest && self.random.percent(50) {
            let depth = |&selector: &u32| self.row(sender, space, selector)[3];
            (choice.iter().copied().max_by_key(depth), 0)
        } else {
            (self.random.pick(choice), self.order(space))
        };
        let selector = selector.unwrap_or(anywhere);
        let origin = self
            .ancestor(sender, space, selector, receiver)
            .unwrap_or(anywhere);
        let mask = self.mask();
        let descriptor = self.around(space, selector, order, mask);
        let window_order = self.wide_order(space, 60);
        let window_mask = self.mask();
        let window = self.around(space, origin, window_order, window_mask);
        let unread = if self.random.percent(30) {
            self.random.word() & !DELEGATE
        } else {
            0
        };
        ((descriptor, unread), window)
    }

    /// A CALL with delegations, translations or both.
    fn call(&mut self, deep: bool) -> Record {
        let space = self.space();
        let mut caller = if deep && self.random.percent(70) {
            self.deepest_caller(space)
        } else {
            self.caller()
        };
        let mut portals = self.portals(caller);
        if portals.is_empty() {
            caller = ROOT;
            portals = self.portals(caller);
        }
        let Some((portal, callee)) = self.random.pick(&portals) else {
            return self.portal_to_be();
        };
        let (sender, receiver) = (caller.domain, callee.domain);
        let null = self.selectors(receiver, space, false);
        let anywhere = self.random.below(space.selectors());
        let target = self.random.pick(&null).unwrap_or(anywhere);
        // The widest window lets each hotspot pick its destination.
        let window_order = self.wide_order(space, if deep { 85 } else { 45 });
        let window_mask = self.mask();
        let mut delegate_window = self.around(space, target, window_order, window_mask);
        let translate_space = self.space();
        let (first, mut translate_window) =
            self.translate_item(sender, receiver, translate_space, deep);
        let count = match self.random.below(20) {
            0 => 0,
            1 => 30,
            2..=4 => self.random.below(12),
            _ => 1 + self.random.below(4),
        };
        let mut items: Vec<Item> = Vec::new();
        for _ in 0..count {
            let item = match self.random.below(20) {
                0 => (self.some_descriptor(sender), self.random.word()),
                1..=3 => first,
                6..=8 if sender == receiver && !items.is_empty() => {
                    self.chained_item(receiver, space, items[items.len() - 1])
                }
                4..=5 => {
                    let (item, _) = self.translate_item(sender, receiver, translate_space, deep);
                    item
                }
                _ => {
                    let space = if self.random.percent(6) {
                        self.space()
                    } else {
                        space
                    };
                    let order = if deep && self.random.percent(70) {
                        0
                    } else {
                        self.order(space)
                    };
                    self.delegate_item(sender, receiver, space, order, deep)
                }
            };
            items.push(item);
        }
        if self.random.percent(4) {
            translate_window = self.some_descriptor(receiver);
        }
        if self.random.percent(4) {
            delegate_window = self.some_descriptor(receiver);
        }
        let mut record = self.message(caller, portal, translate_window, delegate_window, &items);
        match self.random.below(50) {
            0 => record.source[0] = self.random.word(),
            // One untyped word too many.
            1 => {
                let typed = items.len();
                record.source[0] = ((DATA_WORDS + 1 - 2 * typed) | typed << 16) as u32;
            }
            2 => record.arguments[0] = self.named_selector(sender, ObjectKind::Pt, CALL_PT),
            _ => {}
        }
        record
    }

    /// A CALL from the root to itself whose items go on from its deepest place, each from the
    /// place that the item before fills.
    fn call_along_a_line(&mut self) -> Record {
        let Some(portal) = self.portal_within() else {
            return self.portal_to_be();
        };
        let space = self.space();
        let mut source = self.deepest(1, space).unwrap_or(0);
        let mut null = self.selectors(1, space, false);
        let mut items: Vec<Item> = Vec::new();
        for _ in 0..1 + self.random.below(30) {
            let Some(destination) = self.random.pick(&null) else {
                break;
            };
            null.retain(|&selector| selector != destination);
            let descriptor = self.around(space, source, 0, FULL_MASK);
            items.push((descriptor, destination << HOTSPOT_SHIFT | DELEGATE));
            source = destination;
        }
        let window = self.around(space, 0, space.order_limit(), FULL_MASK);
        self.message(ROOT, portal, 0, window, &items)
    }

    /// A creation by which the root may come to hold a portal.
    fn portal_to_be(&mut self) -> Record {
        let new = self.null_selector(1);
        let pd = self.named_selector(1, ObjectKind::Pd, FULL_MASK);
        if self.random.percent(50) {
            let event_base = self.odd_word();
            return self.make(Hypercall::CreateEc, ROOT_EC, &[new, pd, 0, event_base]);
        }
        let ec = self.named_selector(1, ObjectKind::Ec, BIND_PT);
        self.make(Hypercall::CreatePt, ROOT_EC, &[new, pd, ec])
    }

    /// A creation of an object of one of these kinds.
    fn create(&mut self, kinds: &[ObjectKind]) -> Record {
        let Context { number, domain, .. } = self.caller();
        let new = self.null_selector(domain);
        let kind = self.random.pick(kinds).unwrap_or(ObjectKind::Sm);
        let pd = self.named_selector(domain, ObjectKind::Pd, kind.create_permission());
        match kind {
            ObjectKind::Pd => {
                let initial = if self.random.percent(75) {
                    self.descriptor_in(domain, Space::Object)
                } else {
                    self.some_descriptor(domain)
                };
                self.make(Hypercall::CreatePd, number, &[new, pd, initial])
            }
            ObjectKind::Ec => {
                let cpu = if self.random.percent(90) {
                    self.random.below(2)
                } else {
                    self.random.below(6)
                };
                let event_base = self.odd_word();
                self.make(Hypercall::CreateEc, number, &[new, pd, cpu, event_base])
            }
            ObjectKind::Sc => {
                let ec = self.named_selector(domain, ObjectKind::Ec, BIND_SC);
                let qpd = self.qpd();
                self.make(Hypercall::CreateSc, number, &[new, pd, ec, qpd])
            }
            ObjectKind::Pt => {
                let ec = self.named_selector(domain, ObjectKind::Ec, BIND_PT);
                let words = [self.odd_word(), self.odd_word(), self.odd_word()];
                let [mtd, ip, identifier] = words;
                self.make(
                    Hypercall::CreatePt,
                    number,
                    &[new, pd, ec, mtd, ip, identifier],
                )
            }
            ObjectKind::Sm => {
                let count = self.odd_word();
                self.make(Hypercall::CreateSm, number, &[new, pd, count])
            }
        }
    }

    /// A creation that takes a further domain only once no record is free.
    fn create_without_domains(&mut self) -> Record {
        let is_free = |number: u32| self.record(number)[0] == FREE;
        if (0..OBJECTS as u32).any(is_free) {
            self.create(&OBJECT_KINDS[1..])
        } else {
            self.create(&OBJECT_KINDS)
        }
    }

    /// A CALL whose items ask for places of the hypervisor, by any execution context.
    fn flagged_call(&mut self) -> Record {
        let caller = self.caller();
        let portals = self.portals(caller);
        let Some((portal, callee)) = self.random.pick(&portals) else {
            return self.call(false);
        };
        let space = self.space();
        let live = self.selectors(0, space, true);
        let null = self.selectors(callee.domain, space, false);
        let mut items: Vec<Item> = Vec::new();
        for _ in 0..1 + self.random.below(3) {
            let source = self.random.pick(&live).unwrap_or(0);
            let destination = self.random.pick(&null).unwrap_or(source);
            let (order, mask) = (self.random.below(3), self.mask());
            let descriptor = self.around(space, source, order, mask);
            items.push((
                descriptor,
                destination << HOTSPOT_SHIFT | HYPERVISOR | DELEGATE,
            ));
        }
        let window = self.around(space, 0, space.order_limit(), FULL_MASK);
        self.message(caller, portal, 0, window, &items)
    }

    /// A CALL from the root to itself whose items overlap the window: the
    /// hotspot picks the window's own selectors or others beside them.
    fn call_within(&mut self) -> Record {
        let Some(portal) = self.portal_within() else {
            return self.portal_to_be();
        };
        let space = self.space();
        let live = self.selectors(1, space, true);
        let anywhere = self.random.below(space.selectors());
        let selector = self.random.pick(&live).unwrap_or(anywhere);
        let order = self.random.below(3);
        let window = self.around(space, selector, order, FULL_MASK);
        let mut items: Vec<Item> = Vec::new();
        for _ in 0..1 + self.random.below(5) {
            let (wider, mask) = (order + self.random.below(3), self.mask());
            let descriptor = self.around(space, selector, wider, mask);
            let flags = if live.is_empty() { HYPERVISOR } else { 0 };
            let hotspot = self.random.below(space.selectors()) << HOTSPOT_SHIFT;
            items.push((descriptor, hotspot | flags | DELEGATE));
        }
        self.message(ROOT, portal, 0, window, &items)
    }

    /// A CALL with some of its windows and items made null or malformed.
    fn null_call(&mut self) -> Record {
        let mut record = self.call(false);
        let windows = record.target[1..3].iter_mut();
        let typed = (record.source[0] >> 16) as usize;
        let slots = record.source[HEADER_WORDS..].rchunks_exact_mut(2);
        let items = slots.take(typed).map(|slot| &mut slot[1]);
        for descriptor in windows.chain(items) {
            match self.random.below(6) {
                0 => *descriptor = self.random.word() & !3,
                1 => *descriptor = self.malformed_descriptor(),
                _ => {}
            }
        }
        record
    }

    /// One of the pages that boot lends the root, and a descriptor of it or of both.
    fn lent_pages(&mut self, mask: u32) -> (u32, u32) {
        let pages = [UTCB_PAGE, INFORMATION_PAGE];
        let page = self.random.pick(&pages).unwrap_or(UTCB_PAGE);
        let order = self.random.below(2);
        (page, self.around(Space::Memory, page, order, mask))
    }

    /// A CALL of the root that hands its pages on, or asks domain 0 for them again.
    fn call_with_pages(&mut self) -> Record {
        let portals = self.portals(ROOT);
        let Some((portal, callee)) = self.random.pick(&portals) else {
            return self.portal_to_be();
        };
        let null = self.selectors(callee.domain, Space::Memory, false);
        let mut items: Vec<Item> = Vec::new();
        for _ in 0..1 + self.random.below(3) {
            let mask = self.mask();
            let (page, descriptor) = self.lent_pages(mask);
            let (destination, flags) = if callee.domain == 1 && self.random.percent(75) {
                (page, HYPERVISOR)
            } else {
                (self.random.pick(&null).unwrap_or(page), 0)
            };
            items.push((descriptor, destination << HOTSPOT_SHIFT | flags | DELEGATE));
        }
        let window = self.around(Space::Memory, 0, Space::Memory.order_limit(), FULL_MASK);
        self.message(ROOT, portal, 0, window, &items)
    }

    /// A CALL that shows the root pages which another domain has from it.
    fn show_pages(&mut self) -> Record {
        let contexts = self.contexts().into_iter();
        let others: Vec<Context> = contexts.filter(|context| context.domain != 1).collect();
        let caller = self.random.pick(&others).unwrap_or(ROOT);
        let portals = self.portals(caller).into_iter();
        let to_root: Vec<(u32, Context)> =
            portals.filter(|(_, callee)| callee.domain == 1).collect();
        let Some((portal, _)) = self.random.pick(&to_root) else {
            return self.call(false);
        };
        let (item, window) = self.translate_item(caller.domain, 1, Space::Memory, false);
        self.message(caller, portal, window, 0, &[item])
    }

    /// A mask for a REVOKE: the given one, with a permission of its space added where it has
    /// none. One mask in eight has none, and is refused.
    fn revoke_mask(&mut self, space: Space, mask: u32) -> u32 {
        let greatest = space.greatest_permissions();
        match self.random.below(16) {
            0 => 0,
            1 => self.random.below(FULL_MASK + 1) & !greatest,
            _ if mask & greatest == 0 => mask | 1 << self.random.below(greatest.count_ones()),
            _ => mask,
        }
    }

    /// A REVOKE by the root of a range around a place that came from the root.
    fn revoke_line(&mut self) -> Record {
        let space = self.space();
        let live = self.selectors(1, space, true);
        let came = |&selector: &u32| self.ancestor(1, space, selector, 1).is_some();
        let lent: Vec<u32> = live.iter().copied().filter(came).collect();
        let anywhere = self.random.below(space.selectors());
        let selector = self.random.pick(&lent).unwrap_or(anywhere);
        let order = 1 + self.random.below(3);
        let mask = 1 << self.random.below(3);
        let mask = self.revoke_mask(space, mask);
        let descriptor = self.around(space, selector, order, mask);
        let self_word = u32::from(self.random.percent(20));
        self.make(Hypercall::Revoke, ROOT_EC, &[descriptor, self_word])
    }

    /// A REVOKE by the root of its pages.
    fn revoke_pages(&mut self) -> Record {
        let mask = self.mask();
        let mask = self.revoke_mask(Space::Memory, mask);
        let (_, descriptor) = self.lent_pages(mask);
        let self_word = self.random.below(2);
        self.make(Hypercall::Revoke, ROOT_EC, &[descriptor, self_word])
    }

    fn revoke(&mut self, deep: bool) -> Record {
        let Context { number, domain, .. } = self.caller();
        let space = self.space();
        let live = self.selectors(domain, space, true);
        let anywhere = self.random.below(space.selectors());
        let selector = self.random.pick(&live).unwrap_or(anywhere);
        let order = if deep { 0 } else { self.order(space) };
        let mask = match self.random.below(10) {
            0..=2 if !deep => FULL_MASK,
            0 => FULL_MASK,
            1..=8 => 1 << self.random.below(5),
            _ => self.random.below(FULL_MASK + 1),
        };
        let mask = self.revoke_mask(space, mask);
        // The root's own objects mostly stay, so that the journal can go on.
        let keep = domain == 1 && space == Space::Object && self.random.percent(90);
        let self_word = match self.random.below(20) {
            0 => self.odd_word(),
            _ if keep => 0,
            draw => draw % 2,
        };
        let descriptor = match self.random.below(12) {
            0 => self.some_descriptor(domain),
            _ => self.around(space, selector, order, mask),
        };
        self.make(Hypercall::Revoke, number, &[descriptor, self_word])
    }

    fn lookup(&mut self) -> Record {
        let Context { number, domain, .. } = self.caller();
        let descriptor = self.some_descriptor(domain);
        self.make(Hypercall::Lookup, number, &[descriptor])
    }

    /// A LOOKUP by the root of one of its pages or of the one just below them.
    fn lookup_pages(&mut self) -> Record {
        let page = INFORMATION_PAGE - self.random.below(3);
        let descriptor = self.around(Space::Memory, page, 0, FULL_MASK);
        self.make(Hypercall::Lookup, ROOT_EC, &[descriptor])
    }

    fn sm_ctrl(&mut self) -> Record {
        let Context { number, domain, .. } = self.caller();
        let operation = if self.random.percent(92) {
            self.random.below(2)
        } else {
            self.odd_word()
        };
        let selector = self.named_selector(domain, ObjectKind::Sm, 1 << (operation & 1));
        self.make(Hypercall::SmCtrl, number, &[selector, operation])
    }

    /// A record of words drawn without regard to the tables.
    fn junk(&mut self) -> Record {
        let hypercall = self
            .random
            .pick(&Hypercall::ALL)
            .unwrap_or(Hypercall::Lookup);
        let mut record = Record::empty(hypercall);
        record.caller = if self.random.percent(70) {
            ROOT_EC
        } else {
            self.odd_word()
        };
        for word in 0..record.arguments.len() {
            record.arguments[word] = match self.random.below(4) {
                0 => self.odd_word(),
                1 => self.some_descriptor(1),
                2 => ROOT_SELECTOR + self.random.below(4),
                _ => self.random.below(Space::Object.selectors()),
            };
        }
        record.source.fill_with(|| self.random.word());
        record.target.fill_with(|| self.random.word());
        record
    }

    /// Spoils one word of a good record.
    fn spoil(&mut self, record: &mut Record) {
        match self.random.below(3) {
            0 => record.caller = self.odd_word(),
            1 => record.caller = self.random.below(OBJECTS as u32),
            _ => {
                let word = self.random.below(4) as usize;
                record.arguments[word] = self.odd_word();
            }
        }
    }

    fn step(&mut self, kind: Kind) {
        let draw = self.random.below(100);
        let mut record = match kind {
            Kind::Mixed => match draw {
                0..=44 => self.call(false),
                45..=59 => self.create(&OBJECT_KINDS),
                60..=73 => self.revoke(false),
                74..=87 => self.lookup(),
                88..=97 => self.sm_ctrl(),
                _ => self.junk(),
            },
            Kind::Deep => match draw {
                0..=19 => self.call_along_a_line(),
                20..=79 => self.call(true),
                80..=82 => self.create(&OBJECT_KINDS),
                83..=89 => self.revoke(true),
                90..=97 => self.lookup(),
                _ => self.sm_ctrl(),
            },
            Kind::Full => match draw {
                0..=44 => self.create(&OBJECT_KINDS),
                45..=69 => self.call(false),
                70..=79 => self.revoke(false),
                80..=89 => self.lookup(),
                _ => self.sm_ctrl(),
            },
            Kind::Junk => self.junk(),
            Kind::Spent => match draw {
                0..=74 => self.create_without_domains(),
                75..=84 => self.revoke(false),
                85..=92 => self.lookup(),
                _ => self.sm_ctrl(),
            },
            Kind::Flagged => match draw {
                0..=64 => self.flagged_call(),
                65..=74 => self.call(false),
                75..=84 => self.revoke(false),
                _ => self.lookup(),
            },
            Kind::Within => match draw {
                0..=39 => self.call_within(),
                40..=54 => self.call(false),
                55..=79 => self.revoke_line(),
                _ => self.lookup(),
            },
            Kind::Null => match draw {
                0..=69 => self.null_call(),
                70..=79 => self.call(false),
                80..=89 => self.revoke(false),
                _ => self.lookup(),
            },
            Kind::Pages => match draw {
                0..=39 => self.call_with_pages(),
                40..=54 => self.show_pages(),
                55..=74 => self.revoke_pages(),
                75..=89 => self.lookup_pages(),
                90..=94 => self.call(false),
                _ => self.revoke(false),
            },
        };
        if self.random.percent(5) {
            self.spoil(&mut record);
        }
        self.run(record);
    }
}
