//! The journals of the replay program's run: `crates/replay` holds them, the
//! arguments and what must be printed. From the root of the repository
//! `cargo run --release --offline --manifest-path model/Cargo.toml --bin journals -- crates/replay`
//! writes all of it again, but for the six journals that have traces.

use std::collections::BTreeSet;
use std::fs;
use std::path::PathBuf;

use model::descriptor::{Descriptor, Range};
use model::journal::{lines, lines_without_test, Machine, Record, Replay, Step};
use model::stored::{Source, STORED};
use model::tables::{Domain, Place, Selector, Space};
use model::{Hypercall, Reply, Status};

use crate::generator::{every_status_of_every_call, refused_mask, Received};
use crate::object_uses::ObjectUses;
use crate::page_uses::PageUses;
use crate::world::{DEPTH_LIMIT, PLACES};

/// A file of the replay program's crate.
pub fn replay_file(name: &str) -> PathBuf {
    let root = concat!(env!("CARGO_MANIFEST_DIR"), "/../crates/replay");
    PathBuf::from(root).join(name)
}

/// The arguments with the bytes that each names; an absent file has none.
fn arguments() -> Vec<(String, Option<Vec<u8>>)> {
    let words = fs::read_to_string(replay_file("args")).expect("readable arguments");
    let file = |word: &str| match word {
        "-" => replay_file("stdin"),
        name => replay_file("data").join(name),
    };
    let bytes = |word: &str| fs::read(file(word)).ok();
    words
        .lines()
        .map(|word| (word.to_string(), bytes(word)))
        .collect()
}

#[test]
fn the_stored_output_is_what_the_model_prints() {
    let printed: String = arguments()
        .iter()
        .filter_map(|(_, bytes)| bytes.as_deref().map(lines))
        .collect();
    let stored = fs::read_to_string(replay_file("stdout")).expect("readable output");
    assert!(stored == printed, "crates/replay/stdout differs");
}

#[test]
fn no_line_of_a_journal_depends_on_the_damage_test() {
    for (name, bytes) in arguments() {
        let bytes = bytes.unwrap_or_default();
        assert!(
            lines(&bytes) == lines_without_test(&bytes),
            "{name} differs"
        );
    }
}

#[test]
fn the_arguments_name_every_file_once() {
    let arguments = arguments();
    let named: BTreeSet<&str> = arguments.iter().map(|(word, _)| word.as_str()).collect();
    assert_eq!(named.len(), arguments.len());
    let files: BTreeSet<String> = fs::read_dir(replay_file("data"))
        .expect("a readable directory")
        .map(|entry| entry.expect("a readable entry").file_name())
        .map(|name| name.into_string().expect("a plain name"))
        .collect();
    let given = arguments.iter().filter(|(_, bytes)| bytes.is_some());
    let expected: BTreeSet<String> = given
        .map(|(word, _)| word.clone())
        .filter(|word| word != "-")
        .collect();
    assert_eq!(files, expected);
    assert_eq!(arguments.len() - files.len(), 2, "`-` and one absent file");
}

#[test]
fn the_stored_journals_are_those_of_the_list() {
    let arguments = arguments();
    assert_eq!(arguments.len(), STORED.len());
    let mut generated = 0;
    for ((word, bytes), (name, source)) in arguments.iter().zip(STORED) {
        assert_eq!(word, name);
        match source {
            Source::Kept => assert!(bytes.is_some(), "{name} is missing"),
            _ => assert!(*bytes == source.bytes(), "{name} differs"),
        }
        generated += u32::from(matches!(source, Source::Generated(..)));
    }
    assert!(generated >= 20);
}

/// What journals hold, each counted by record or by item.
#[derive(Default, Debug)]
pub struct Features {
    statuses: BTreeSet<(u32, u32)>,
    records: usize,
    longest: usize,
    empty: u32,
    cut: u32,
    cut_after_kind: u32,
    bad: u32,
    bad_last_byte: u32,
    depth_limit: u32,
    refused_at_the_limit: u32,
    all_records: u32,
    all_domains: u32,
    no_room_for_a_domain: u32,
    no_room_for_a_record: u32,
    flag_of_the_root: u32,
    flag_of_another_over_own: u32,
    flag_of_another_over_nothing: u32,
    onto_itself: u32,
    beside_itself: u32,
    handed_on_in_one_message: u32,
    onto_a_live_place: u32,
    translated: u32,
    translated_ranges: u32,
    untranslated: u32,
    window_too_small: u32,
    /// Translations between domains over more than half of the depth limit, and over all of it
    /// but one step at most.
    translated_far: u32,
    translated_farthest: u32,
    received: Received,
    revoked_beyond_children: u32,
    revoked_inside_the_range: u32,
    revoked_with_self: u32,
    /// REVOKEs refused for mask 0 and for another, by space.
    refused_masks: [[u32; 2]; 3],
    initial_ranges: u32,
    new_selector_in_initial_range: u32,
    pub page_uses: PageUses,
    pub object_uses: ObjectUses,
}

/// An item and the window that its kind uses, in one space, between two domains.
struct Transfer {
    sender: Domain,
    receiver: Domain,
    item: Range,
    window: Range,
}

pub fn row(machine: &Machine, place: Place) -> [u32; 4] {
    let start = place.number() as usize * 4;
    std::array::from_fn(|word| machine.places[start + word])
}

pub fn is_live(machine: &Machine, place: Place) -> bool {
    row(machine, place)[1] != 0
}

fn parent(machine: &Machine, place: Place) -> Option<Place> {
    Place::from_number(row(machine, place)[2].checked_sub(1)?)
}

/// The strict ancestors of a place, nearest first.
pub fn ancestors(machine: &Machine, place: Place) -> impl Iterator<Item = Place> + '_ {
    std::iter::successors(parent(machine, place), |&above| parent(machine, above))
}

/// The domain of an execution context that made or served a call.
fn domain_of(machine: &Machine, ec: u32) -> Domain {
    Domain::new(machine.objects[ec as usize * 5 + 1]).expect("a domain of sound tables")
}

pub fn range(word: u32) -> Option<Range> {
    Descriptor::from_word(word).range().ok().flatten()
}

fn overlap(one: Range, other: Range) -> bool {
    one.covers(other.base, other.order) || other.covers(one.base, one.order)
}

impl Features {
    /// Depth 63, sources refused there, and translations up long chains.
    pub fn chains(&self) -> [u32; 4] {
        [
            self.depth_limit,
            self.refused_at_the_limit,
            self.translated_far,
            self.translated_farthest,
        ]
    }

    pub fn journal(&mut self, bytes: &[u8]) {
        let mut replay = Replay::new(bytes);
        let mut before = replay.machine.clone();
        let mut read = 0;
        loop {
            match replay.step() {
                Step::Ran(_, reply) => {
                    read += 1;
                    let call = replay.record.hypercall;
                    self.statuses.insert((call.number(), reply.status.number()));
                    self.call(&before, &replay.record, reply, &replay.machine);
                    before.clone_from(&replay.machine);
                }
                Step::Stopped(stop) => {
                    let last = bytes.last().map(|&byte| format!("bad {byte}"));
                    let stop = stop.to_string();
                    self.cut += u32::from(stop == "cut");
                    self.cut_after_kind += u32::from(stop == "cut" && bytes.len() == 1);
                    self.bad += u32::from(stop != "cut");
                    self.bad_last_byte += u32::from(Some(stop) == last);
                }
                Step::Ended(_) => break,
            }
        }
        self.records += read;
        self.longest = self.longest.max(read);
        self.empty += u32::from(bytes.is_empty());
    }

    fn call(&mut self, before: &Machine, record: &Record, reply: Reply, after: &Machine) {
        let Reply { status, answer } = reply;
        let rows = || after.objects.chunks(5);
        let used = rows().filter(|row| row[0] != 0).count();
        let domains = rows().filter(|row| row[0] == 1).count();
        self.all_records += u32::from(used == 64);
        self.all_domains += u32::from(domains == 7);
        self.depth_limit += u32::from(after.places.chunks(4).any(|row| row[3] == DEPTH_LIMIT));
        if let Some((space, mask)) = refused_mask(record, status) {
            self.refused_masks[space as usize][usize::from(mask != 0)] += 1;
        }
        self.object_uses.called(record, status);
        match (record.hypercall, status) {
            (Hypercall::CreatePd, Status::NoRoom) if used < 64 => self.no_room_for_a_domain += 1,
            (Hypercall::CreatePd, Status::NoRoom) if domains < 7 => self.no_room_for_a_record += 1,
            (Hypercall::CreatePd, Status::Success) => self.create_pd(before, record, after),
            (Hypercall::Call, Status::Success) => {
                self.received.count(record);
                self.message(before, record);
            }
            (Hypercall::Revoke, Status::Success) => self.revoke(before, record, after),
            (Hypercall::Lookup, Status::Success) => self.lookup(before, record, answer),
            _ => {}
        }
    }

    fn create_pd(&mut self, before: &Machine, record: &Record, after: &Machine) {
        let [new, _, word, ..] = record.arguments;
        let Some(initial) = range(word) else {
            return;
        };
        let caller = domain_of(before, record.caller);
        let created = after.objects.chunks(5).filter(|row| row[0] == 1).count() as u32;
        let created = Domain::new(created).expect("a domain of sound tables");
        let filled = initial.places(created).any(|place| is_live(after, place));
        self.initial_ranges += u32::from(filled);
        if filled {
            self.object_uses.initial(word);
        }
        let holds_new = (0..initial.length()).any(|offset| {
            let source = initial.place(caller, offset);
            source.selector() == Selector::wrapped(new, Space::Object)
        });
        self.new_selector_in_initial_range += u32::from(holds_new);
    }

    /// The items of a message, each on the tables that the one before left.
    fn message(&mut self, before: &Machine, record: &Record) {
        let sender = domain_of(before, record.caller);
        let portal = Selector::wrapped(record.arguments[0], Space::Object);
        let portal = row(before, Place::new(sender, Space::Object, portal))[0];
        let receiver = domain_of(before, before.objects[portal as usize * 5 + 1]);
        let mut here = before.clone();
        let mut filled = Vec::new();
        for count in 1..=record.source[0] >> 16 {
            let (mut there, mut part) = (before.clone(), record.clone());
            part.source[0] = count << 16;
            there.run(&mut part);
            let at = 65 - 2 * count as usize;
            let second = record.source[at - 1];
            let delegates = second & 1 == 1;
            let (item, window) = (record.source[at], part.target[1 + usize::from(delegates)]);
            self.object_uses
                .received(item, window, delegates, part.target[at]);
            let item = range(item);
            let window =
                range(window).filter(|window| item.is_some_and(|item| item.space == window.space));
            if let (Some(item), Some(window)) = (item, window) {
                let transfer = Transfer {
                    sender,
                    receiver,
                    item,
                    window,
                };
                if delegates {
                    self.delegation(&here, transfer, second, &there, &mut filled);
                } else {
                    self.translation(&here, transfer, part.target[at]);
                }
            }
            here = there;
        }
    }

    fn delegation(
        &mut self,
        before: &Machine,
        transfer: Transfer,
        second: u32,
        after: &Machine,
        filled: &mut Vec<Place>,
    ) {
        let Transfer {
            sender,
            receiver,
            item,
            window,
        } = transfer;
        let (flag, hotspot) = (second & 1 << 11 != 0, second >> 12);
        let by_root = sender == Domain::ROOT;
        let order = item.order.min(window.order);
        let (from, to) = (item.part(order, hotspot), window.part(order, hotspot));
        let source_domain = if flag && by_root {
            Domain::HYPERVISOR
        } else {
            sender
        };
        let (mut fills, mut hypervisor_could) = (false, false);
        for offset in 0..from.length() {
            let source = from.place(source_domain, offset);
            let destination = to.place(receiver, offset);
            let [_, permissions, _, depth] = row(before, source);
            let is_free = !is_live(before, destination);
            let is_filled = is_free && is_live(after, destination);
            let is_allowed = permissions & item.mask != 0;
            let is_moved = source != destination;
            if is_allowed {
                let places = [source, destination];
                self.page_uses.delegated(before, places, is_filled);
            }
            self.refused_at_the_limit += u32::from(is_free && is_allowed && depth == DEPTH_LIMIT);
            self.onto_a_live_place +=
                u32::from(!is_free && is_allowed && depth < DEPTH_LIMIT && is_moved);
            self.handed_on_in_one_message += u32::from(is_filled && filled.contains(&source));
            if is_filled {
                filled.push(destination);
                self.object_uses.filled([source, destination]);
            }
            fills |= is_filled;
            let tempting = is_live(before, from.place(Domain::HYPERVISOR, offset));
            hypervisor_could |= is_free && tempting;
        }
        self.flag_of_the_root += u32::from(flag && by_root && fills);
        self.flag_of_another_over_own += u32::from(flag && !by_root && fills);
        self.flag_of_another_over_nothing +=
            u32::from(flag && !by_root && !fills && hypervisor_could);
        if source_domain == receiver && overlap(item, window) {
            self.onto_itself += u32::from(from.base == to.base);
            self.beside_itself += u32::from(fills);
        }
    }

    fn translation(&mut self, machine: &Machine, transfer: Transfer, shown: u32) {
        let Transfer {
            sender,
            receiver,
            item,
            window,
        } = transfer;
        self.translated += u32::from(shown != 0);
        self.translated_ranges += u32::from(shown != 0 && item.order > 0);
        self.untranslated += u32::from(shown == 0);
        let nearest = (1..)
            .zip(ancestors(machine, item.place(sender, 0)))
            .find(|(_, above)| above.domain() == receiver);
        let Some((steps, above)) = nearest else {
            return;
        };
        self.window_too_small += u32::from(!window.covers(above.selector(), item.order));
        let between = shown != 0 && sender != receiver;
        self.translated_far += u32::from(between && steps > DEPTH_LIMIT / 2);
        self.translated_farthest += u32::from(between && steps >= DEPTH_LIMIT - 1);
        if sender != receiver && receiver == Domain::ROOT {
            self.page_uses.translated(machine, shown);
        }
    }

    fn revoke(&mut self, before: &Machine, record: &Record, after: &Machine) {
        let [descriptor, self_word, ..] = record.arguments;
        let Some(range) = range(descriptor) else {
            return;
        };
        let caller = domain_of(before, record.caller);
        if caller == Domain::ROOT {
            let with_self = self_word == 1;
            self.page_uses.revoked(before, range, with_self, after);
        }
        let origins: Vec<Place> = range.places(caller).collect();
        let places = (0..PLACES).filter_map(Place::from_number);
        let changed: Vec<Place> = places
            .filter(|&place| row(before, place) != row(after, place))
            .collect();
        self.object_uses.revoked(descriptor, &changed);
        for place in changed {
            let depth = ancestors(before, place).position(|above| origins.contains(&above));
            self.revoked_beyond_children += u32::from(depth.is_some_and(|depth| depth > 0));
            if origins.contains(&place) {
                self.revoked_inside_the_range += u32::from(self_word == 0);
                self.revoked_with_self += u32::from(self_word == 1 && depth.is_none());
            }
        }
    }

    fn lookup(&mut self, machine: &Machine, record: &Record, answer: u32) {
        let named = range(record.arguments[0]);
        self.object_uses.looked_up(record.arguments[0], answer);
        if let (Some(named), Domain::ROOT) = (named, domain_of(machine, record.caller)) {
            self.page_uses.looked_up(named, answer);
        }
    }
}

#[test]
fn the_stored_journals_hold_every_feature() {
    let mut all = Features::default();
    for bytes in arguments().into_iter().filter_map(|(_, bytes)| bytes) {
        all.journal(&bytes);
    }
    // BAD_HYP cannot come from a journal, where such a record is `bad`; nor DAMAGED,
    // since boot and every call leave sound tables; nor SHORT, which is the census's.
    assert_eq!(all.statuses, every_status_of_every_call());
    let counts = [
        ("an empty journal", all.empty),
        ("a cut record", all.cut),
        ("a lone kind byte", all.cut_after_kind),
        ("a bad kind", all.bad),
        ("a bad kind as the last byte", all.bad_last_byte),
        ("depth 63", all.depth_limit),
        ("a source refused at depth 63", all.refused_at_the_limit),
        ("all records", all.all_records),
        ("all domains", all.all_domains),
        (
            "NO_ROOM for want of a domain alone",
            all.no_room_for_a_domain,
        ),
        (
            "NO_ROOM for want of a record alone",
            all.no_room_for_a_record,
        ),
        ("H by the root", all.flag_of_the_root),
        ("H by another, from its own", all.flag_of_another_over_own),
        ("H by another, refused", all.flag_of_another_over_nothing),
        ("a range onto itself", all.onto_itself),
        ("a range beside itself", all.beside_itself),
        ("a place handed on at once", all.handed_on_in_one_message),
        ("a live destination", all.onto_a_live_place),
        ("a translation", all.translated),
        ("a translated range", all.translated_ranges),
        ("a failed translation", all.untranslated),
        ("an ancestor outside the window", all.window_too_small),
        ("a translation over more than 31 steps", all.translated_far),
        ("a translation over 62 steps", all.translated_farthest),
        ("a revoked grandchild", all.revoked_beyond_children),
        (
            "a revoked place of the range, self 0",
            all.revoked_inside_the_range,
        ),
        (
            "a revoked place of the range, self 1",
            all.revoked_with_self,
        ),
        ("mask 0 refused for pages", all.refused_masks[0][0]),
        ("another mask refused for pages", all.refused_masks[0][1]),
        ("mask 0 refused for ports", all.refused_masks[1][0]),
        ("another mask refused for ports", all.refused_masks[1][1]),
        ("mask 0 refused for objects", all.refused_masks[2][0]),
        ("an initial range", all.initial_ranges),
        (
            "an initial range with the new selector",
            all.new_selector_in_initial_range,
        ),
    ];
    for (feature, count) in counts {
        assert!(count > 0, "no journal holds {feature}");
    }
    for (feature, count) in all.object_uses.counts() {
        assert!(count > 1, "{feature}: {count} times");
    }
    let counts = [all.received.counts(), all.page_uses.counts()];
    for (feature, count) in counts.into_iter().flatten() {
        assert!(count >= 5, "{feature}: {count} times");
    }
    assert!(all.records > 10_000 && all.longest >= 3_000);
}

#[test]
fn each_generated_journal_holds_what_its_name_says() {
    for (name, source) in STORED {
        if !matches!(source, Source::Generated(..)) {
            continue;
        }
        let mut held = Features::default();
        held.journal(&source.bytes().unwrap_or_default());
        let (subject, _) = name.rsplit_once('-').expect("a subject and a number");
        let counts = match subject {
            "every-call" => Hypercall::ALL
                .map(|call| u32::from(held.statuses.contains(&(call.number(), 0))))
                .to_vec(),
            "depth-limit" => held.chains().to_vec(),
            "all-domains" => vec![held.all_domains, held.no_room_for_a_domain],
            "all-records" => vec![held.all_records, held.no_room_for_a_record],
            "hypervisor-flag" => vec![
                held.flag_of_the_root,
                held.flag_of_another_over_own,
                held.flag_of_another_over_nothing,
            ],
            "overlap-in-one-domain" => vec![
                held.onto_itself,
                held.beside_itself,
                held.revoked_inside_the_range,
            ],
            "null-items" => {
                let counts = held.received.counts();
                counts.into_iter().map(|(_, count)| count).collect()
            }
            "root-pages" => {
                let counts = held.page_uses.counts();
                counts.into_iter().map(|(_, count)| count).collect()
            }
            "unrelated-words" => [Status::BadPar, Status::BadCaller]
                .map(|status| u32::from(held.statuses.iter().any(|held| held.1 == status.number())))
                .to_vec(),
            _ => panic!("{name} has no meaning here"),
        };
        assert!(counts.iter().all(|&count| count > 0), "{name}: {counts:?}");
    }
}
