//! What journals do with an object space that is larger than the others.

use std::collections::BTreeMap;

use model::journal::Record;
use model::tables::{Place, Space};
use model::{Hypercall, Status};

use crate::journals::range;
use crate::world::{MEMORY, OBJECT, SELECTORS};

/// Selectors of memory, which are as many as those of I/O, and of objects.
const SMALL: u32 = SELECTORS[MEMORY as usize];
const LARGE: u32 = SELECTORS[OBJECT as usize];

/// Every use, by name.
const USES: [&str; 31] = [
    "a selector above 63 named",
    "a selector word above 255",
    "a selector word above 255 for one above 63",
    "a semaphore above 63 counted",
    "an event base of 64 to 255",
    "an event base word above 255",
    "a place above 63 handed on",
    "a place above 63 filled",
    "an item of order 7",
    "an item of order 8",
    "an item's base above 255",
    "a window of order 7",
    "a window of order 8",
    "a window's base above 255",
    "a range above 63 translated",
    "an initial range of order 7",
    "an initial range of order 8",
    "an initial range's base above 255",
    "a place above 63 revoked",
    "a revoked range of order 7",
    "a revoked range of order 8",
    "a revoked range's base above 255",
    "a selector above 63 looked up",
    "a range above 63 looked up",
    "a looked up range of order 7",
    "a looked up range of order 8",
    "a looked up range's base above 255",
    "an order of 7 or 8 refused for pages",
    "an order of 7 or 8 refused for ports",
    "an order of 9 or 10 refused for objects",
    "a base for order 7 or 8 refused",
];

/// How often each use was made.
#[derive(Default, Debug)]
pub struct ObjectUses(BTreeMap<String, u32>);

impl ObjectUses {
    fn count(&mut self, name: &str, holds: bool) {
        assert!(USES.contains(&name), "{name} is no use");
        *self.0.entry(name.to_string()).or_default() += u32::from(holds);
    }

    /// The order and the base of an object descriptor that was used.
    fn descriptor(&mut self, name: &str, word: u32) {
        if range(word).is_some_and(|range| range.space == Space::Object) {
            let (order, base) = (word >> 7 & 31, word >> 12);
            self.count(&format!("{name} of order 7"), order == 7);
            self.count(&format!("{name} of order 8"), order == 8);
            self.count(&format!("{name}'s base above 255"), base >= LARGE);
        }
    }

    /// A call with its status: the selectors that it names, an event base, and descriptors
    /// that were refused.
    pub fn called(&mut self, record: &Record, status: Status) {
        let [first, second, third, fourth, ..] = record.arguments;
        let selectors = match record.hypercall {
            Hypercall::Call | Hypercall::SmCtrl => vec![first],
            Hypercall::CreateSc | Hypercall::CreatePt => vec![first, second, third],
            Hypercall::Revoke | Hypercall::Lookup => vec![],
            _ => vec![first, second],
        };
        if status == Status::Success {
            for word in selectors {
                let (above, past) = (word % LARGE >= SMALL, word >= LARGE);
                self.count("a selector above 63 named", above);
                self.count("a selector word above 255", past);
                self.count("a selector word above 255 for one above 63", above && past);
            }
        }
        if record.hypercall == Hypercall::SmCtrl && status == Status::Success {
            self.count("a semaphore above 63 counted", first % LARGE >= SMALL);
        }
        if record.hypercall == Hypercall::CreateEc && status == Status::Success {
            let stored = (SMALL..LARGE).contains(&fourth);
            self.count("an event base of 64 to 255", stored);
            self.count("an event base word above 255", fourth >= LARGE);
        }
        let has_range = matches!(record.hypercall, Hypercall::Revoke | Hypercall::Lookup);
        if has_range && status == Status::BadPar && range(first).is_none() {
            let (kind, order, base) = (first % 4, first >> 7 & 31, first >> 12);
            let middle = order == 7 || order == 8;
            self.count("an order of 7 or 8 refused for pages", kind == 1 && middle);
            self.count("an order of 7 or 8 refused for ports", kind == 2 && middle);
            let past = kind == 3 && (order == 9 || order == 10);
            self.count("an order of 9 or 10 refused for objects", past);
            let is_between = base % (1 << order) != 0;
            self.count(
                "a base for order 7 or 8 refused",
                kind == 3 && middle && is_between,
            );
        }
    }

    /// A place that a delegation filled, with its source.
    pub fn filled(&mut self, [from, to]: [Place; 2]) {
        if from.space() == Space::Object {
            let [from, to] = [from, to].map(|place| place.selector().number() >= SMALL);
            self.count("a place above 63 handed on", from);
            self.count("a place above 63 filled", to);
        }
    }

    /// An item and its window, with the descriptor received.
    pub fn received(&mut self, item: u32, window: u32, delegates: bool, shown: u32) {
        if let Some(found) = range(shown).filter(|found| found.space == Space::Object) {
            self.descriptor("an item", item);
            self.descriptor("a window", window);
            let above = found.base.number() >= SMALL;
            self.count("a range above 63 translated", !delegates && above);
        }
    }

    /// An initial range that filled places.
    pub fn initial(&mut self, word: u32) {
        self.descriptor("an initial range", word);
    }

    /// A REVOKE and the places that it changed.
    pub fn revoked(&mut self, word: u32, changed: &[Place]) {
        if !changed.is_empty() {
            self.descriptor("a revoked range", word);
        }
        for place in changed {
            let is_object = place.space() == Space::Object;
            let above = place.selector().number() >= SMALL;
            self.count("a place above 63 revoked", is_object && above);
        }
    }

    /// A LOOKUP that succeeded.
    pub fn looked_up(&mut self, word: u32, answer: u32) {
        self.descriptor("a looked up range", word);
        if let Some(found) = range(answer).filter(|found| found.space == Space::Object) {
            let above = found.base.number() >= SMALL;
            self.count("a selector above 63 looked up", above);
            self.count("a range above 63 looked up", above && found.order > 0);
        }
    }

    /// Every use with its count.
    pub fn counts(&self) -> Vec<(String, u32)> {
        let count = |name: &str| self.0.get(name).copied().unwrap_or(0);
        USES.map(|name| (name.to_string(), count(name))).to_vec()
    }
}
