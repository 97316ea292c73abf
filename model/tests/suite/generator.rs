//! The generator: the same bytes for the same arguments, and journals that
//! reach what they are meant to reach.

use std::collections::BTreeSet;

use model::descriptor::Descriptor;
use model::generator::{journal, Kind};
use model::journal::{lines, Record, Replay, Step};
use model::tables::Space;
use model::{Hypercall, Status};

use crate::journals::Features;
use crate::world::{DELEGATE, DEPTH_LIMIT, DOMAIN_PLACES, TRANSLATE};

#[test]
fn the_same_arguments_give_the_same_bytes() {
    let mut all = BTreeSet::new();
    for kind in Kind::ALL {
        assert_eq!(Kind::from_name(kind.name()), Some(kind));
        for seed in 0..5 {
            let bytes = journal(kind, seed, 80);
            assert_eq!(bytes, journal(kind, seed, 80));
            assert!(
                all.insert(bytes),
                "{} {seed} repeats another journal",
                kind.name()
            );
        }
    }
    assert_eq!(Kind::from_name("other"), None);
}

/// The space and the mask of a REVOKE that was refused, where nothing but its mask is wrong.
pub fn refused_mask(record: &Record, status: Status) -> Option<(Space, u32)> {
    let [descriptor, own, ..] = record.arguments;
    let range = Descriptor::from_word(descriptor).range().ok()??;
    let refused = record.hypercall == Hypercall::Revoke && status == Status::BadPar && own < 2;
    refused.then_some((range.space, range.mask))
}

/// Items with their windows that tell the order of the reasons.
const PAIRS: [&str; 4] = [
    "a malformed item for a null window",
    "a null item for a malformed window",
    "a malformed item for a window of another type",
    "an item of another type for a malformed window",
];

/// Typed items as their receivers got them, by kind: 0 translate, 1 delegate.
#[derive(Default, Debug)]
pub struct Received {
    /// By reason; 0 for those that are not null.
    reasons: [[u32; 6]; 2],
    /// Those that show more than one place.
    ranges: [u32; 2],
    pairs: [[u32; PAIRS.len()]; 2],
}

impl Received {
    /// Counts the items of a CALL that succeeded.
    pub fn count(&mut self, record: &Record) {
        for item in 0..(record.source[0] >> 16) as usize {
            let (second, shown) = (record.target[62 - 2 * item], record.target[63 - 2 * item]);
            let (kind, reason) = (second as usize % 2, second / 2);
            assert_eq!(shown == 0, reason != 0);
            self.reasons[kind][reason as usize] += 1;
            self.ranges[kind] += u32::from(shown >> 7 & 31 > 0);
            let item = Descriptor::from_word(record.source[63 - 2 * item]);
            let window = Descriptor::from_word(record.target[1 + kind]);
            let differ = item.space() != window.space();
            let (pair, expected) = match (item.range(), window.range()) {
                (Err(_), Ok(None)) => (0, 1),
                (Ok(None), Err(_)) => (1, 1),
                (Err(_), Ok(Some(_))) if differ => (2, 2),
                (Ok(Some(_)), Err(_)) if differ => (3, 2),
                _ => continue,
            };
            assert_eq!(reason, expected, "{}", PAIRS[pair]);
            self.pairs[kind][pair] += 1;
        }
    }

    /// Whether a kind's items reach more than these numbers: of those that are not null, of
    /// ranges among them, and of null ones.
    fn reaches(&self, kind: u32, shown: u32, ranges: u32, null: u32) -> bool {
        let kind = kind as usize;
        let nulls: u32 = self.reasons[kind][1..].iter().sum();
        self.reasons[kind][0] > shown && self.ranges[kind] > ranges && nulls > null
    }

    /// Every reason that a kind can have, and every pair, with its count.
    pub fn counts(&self) -> Vec<(String, u32)> {
        let kinds = [
            ("translate", [0, 1, 2, 3, 5]),
            ("delegate", [0, 1, 2, 3, 4]),
        ];
        let mut counts = Vec::new();
        for (kind, (name, reasons)) in kinds.into_iter().enumerate() {
            for reason in reasons {
                let count = self.reasons[kind][reason];
                counts.push((format!("{name}: reason {reason}"), count));
            }
            for (pair, &count) in PAIRS.iter().zip(&self.pairs[kind]) {
                counts.push((format!("{name}: {pair}"), count));
            }
        }
        counts
    }
}

/// What some journals reached.
#[derive(Default)]
struct Reached {
    /// Hypercall number and status number.
    statuses: BTreeSet<(u32, u32)>,
    depth: u32,
    domains: u32,
    objects: usize,
    received: Received,
    /// Delegations from domain 0, and within one domain.
    from_hypervisor: u32,
    within_domain: u32,
    /// REVOKEs that succeeded, and those refused for mask 0 and for another, by space.
    revoked: u32,
    refused_masks: [[u32; 2]; 3],
    cuts: u32,
    bads: u32,
}

fn reach(kind: Kind, seeds: u64, count: usize) -> Reached {
    let mut reached = Reached::default();
    for seed in 0..seeds {
        let bytes = journal(kind, seed, count);
        let mut replay = Replay::new(&bytes);
        while let Step::Ran(_, reply) = replay.step() {
            let call = replay.record.hypercall;
            let status = reply.status.number();
            reached.statuses.insert((call.number(), status));
            if call == Hypercall::Call && status == 0 {
                reached.received.count(&replay.record);
            }
            reached.revoked += u32::from(call == Hypercall::Revoke && status == 0);
            if let Some((space, mask)) = refused_mask(&replay.record, reply.status) {
                reached.refused_masks[space as usize][usize::from(mask != 0)] += 1;
            }
        }
        let rows = replay.machine.places.chunks(4).zip(0u32..);
        for (row, place) in rows {
            reached.depth = reached.depth.max(row[3]);
            if let Some(parent) = row[2].checked_sub(1) {
                reached.from_hypervisor += u32::from(parent < DOMAIN_PLACES);
                reached.within_domain += u32::from(parent / DOMAIN_PLACES == place / DOMAIN_PLACES);
            }
        }
        let records = || replay.machine.objects.chunks(5);
        reached.objects = reached
            .objects
            .max(records().filter(|record| record[0] != 0).count());
        let domains = records()
            .filter(|record| record[0] == 1)
            .map(|record| record[1]);
        reached.domains = reached.domains.max(domains.max().unwrap_or(0));
        let lines = lines(&bytes);
        reached.cuts += u32::from(lines.contains("cut"));
        reached.bads += u32::from(lines.contains("bad"));
        assert!(lines.ends_with(&format!("end {count}\n")));
    }
    reached
}

/// The statuses that each hypercall can give on sound tables, by their numbers.
pub fn every_status_of_every_call() -> BTreeSet<(u32, u32)> {
    let possible: [(u32, &[u32]); 9] = [
        (0, &[0, 1, 4, 5, 7, 18]),
        (2, &[0, 4, 5, 16, 18]),
        (3, &[0, 4, 7, 16, 18]),
        (4, &[0, 4, 5, 16, 18]),
        (5, &[0, 4, 16, 18]),
        (6, &[0, 4, 16, 18]),
        (7, &[0, 5, 18]),
        (8, &[0, 5, 18]),
        (11, &[0, 1, 4, 5, 18]),
    ];
    possible
        .iter()
        .flat_map(|(call, all)| all.iter().map(|status| (*call, *status)))
        .collect()
}

#[test]
fn mixed_journals_reach_every_status_of_every_call() {
    let reached = reach(Kind::Mixed, 60, 300);
    assert_eq!(reached.statuses, every_status_of_every_call());
    assert!(reached.received.reaches(TRANSLATE, 500, 50, 500));
    assert!(reached.received.reaches(DELEGATE, 5000, 1000, 1000));
    assert!(reached.from_hypervisor > 500 && reached.within_domain > 500);
    assert!(reached.cuts > 0 && reached.bads > 0);
}

#[test]
fn deep_journals_reach_the_depth_limit() {
    let reached = reach(Kind::Deep, 12, 300);
    assert_eq!(reached.depth, DEPTH_LIMIT);
    assert!(reached.received.reaches(TRANSLATE, 100, 5, 0));
    let mut held = Features::default();
    for seed in 0..12 {
        held.journal(&journal(Kind::Deep, seed, 300));
    }
    let chains = held.chains();
    assert!(chains.iter().all(|&count| count >= 20), "{chains:?}");
}

#[test]
fn full_journals_use_all_records_and_domains() {
    let reached = reach(Kind::Full, 12, 300);
    assert_eq!((reached.objects, reached.domains), (64, 7));
    for call in 2..7 {
        assert!(
            reached.statuses.contains(&(call, 16)),
            "call {call} never lacked room"
        );
    }
}

#[test]
fn junk_journals_are_mostly_refused() {
    let reached = reach(Kind::Junk, 12, 300);
    for status in [0, 4, 5, 7, 18] {
        assert!(
            reached.statuses.iter().any(|&(_, seen)| seen == status),
            "status {status} was never met"
        );
    }
}

#[test]
fn one_revocation_in_eight_is_refused_for_its_mask() {
    for kind in Kind::ALL.into_iter().filter(|&kind| kind != Kind::Junk) {
        let reached = reach(kind, 20, 300);
        let [memory, io, object] = reached.refused_masks;
        // Every mask of objects but 0 has a permission of some object.
        let reaches = [memory, io].iter().flatten().all(|&count| count > 0) && object[0] > 0;
        assert!(reaches && object[1] == 0, "{} journals", kind.name());
        let refused: u32 = reached.refused_masks.iter().flatten().sum();
        let all = refused + reached.revoked;
        assert!(
            refused * 16 > all && refused * 5 < all,
            "{refused} of {all} in {} journals",
            kind.name()
        );
    }
}

#[test]
fn null_journals_reach_every_reason_and_every_pair() {
    let reached = reach(Kind::Null, 20, 300);
    for (feature, count) in reached.received.counts() {
        assert!(count >= 50, "{feature}: {count} times");
    }
}

#[test]
fn mixed_journals_make_every_use_of_the_object_space() {
    let mut held = Features::default();
    for seed in 0..60 {
        held.journal(&journal(Kind::Mixed, seed, 300));
    }
    for (name, count) in held.object_uses.counts() {
        // A word past the space names what is meant, so such calls mostly succeed.
        let is_word = name == "a selector word above 255 for one above 63";
        let least = if is_word { 80 } else { 5 };
        assert!(count >= least, "{name}: {count} times");
    }
}

#[test]
fn journals_of_the_roots_pages_make_every_use_of_them() {
    let mut held = Features::default();
    for seed in 0..20 {
        held.journal(&journal(Kind::Pages, seed, 300));
    }
    for (name, count) in held.page_uses.counts() {
        assert!(count >= 10, "{name}: {count} times");
    }
}
