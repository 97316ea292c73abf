//! What journals do with the two pages that boot lends the root.

use model::descriptor::Range;
use model::journal::Machine;
use model::tables::{Domain, Place, Space};

use crate::journals::{ancestors, is_live, range, row};
use crate::world::{place, MEMORY, PLACES, ROOT_PAGES};

/// The page below the root's two, which boot does not lend.
const PAGE_BELOW: u32 = 61;

/// By page.
type Counts = [u32; ROOT_PAGES.len()];

/// What is done with each page where the root has it from domain 0, and where it was lost.
#[derive(Default, Debug)]
pub struct PageUses {
    handed_on: Counts,
    handed_on_within: Counts,
    translated_back: Counts,
    revoked_below: Counts,
    revoked_without_heirs: Counts,
    weakened: Counts,
    given_up: Counts,
    given_up_with_heirs: Counts,
    not_taken: Counts,
    taken_again: Counts,
    looked_up_as_lent: Counts,
    looked_up_joined: Counts,
    looked_up_null: Counts,
    below_looked_up: u32,
}

/// The root's place of a page, and domain 0's.
fn places(page: u32) -> [Place; 2] {
    [1, 0].map(|domain| {
        Place::from_number(place(domain, MEMORY, page)).expect("a place of the tables")
    })
}

/// Whether the root has the page from domain 0.
fn is_lent(machine: &Machine, page: u32) -> bool {
    let [own, source] = places(page);
    let [resource, permissions, parent, _] = row(machine, own);
    permissions != 0 && resource == page && parent == source.number() + 1
}

/// Whether a range of the root's memory holds a page.
fn holds(range: Range, page: u32) -> bool {
    let [own, _] = places(page);
    range.space == Space::Memory && range.covers(own.selector(), 0)
}

impl PageUses {
    /// One place of a delegation that a mask allows.
    pub fn delegated(&mut self, before: &Machine, [from, to]: [Place; 2], is_filled: bool) {
        for (index, (page, _)) in ROOT_PAGES.into_iter().enumerate() {
            let [own, source] = places(page);
            if from == own && is_filled && is_lent(before, page) {
                let within = to.domain() == Domain::ROOT;
                self.handed_on[index] += u32::from(!within);
                self.handed_on_within[index] += u32::from(within);
            }
            if [from, to] == [source, own] {
                self.taken_again[index] += u32::from(is_filled);
                self.not_taken[index] += u32::from(is_live(before, own));
            }
        }
    }

    /// A translation from another domain that showed the root a range.
    pub fn translated(&mut self, before: &Machine, shown: u32) {
        for (index, (page, _)) in ROOT_PAGES.into_iter().enumerate() {
            let is_shown = range(shown).is_some_and(|shown| holds(shown, page));
            self.translated_back[index] += u32::from(is_shown && is_lent(before, page));
        }
    }

    /// A REVOKE by the root.
    pub fn revoked(&mut self, before: &Machine, range: Range, with_self: bool, after: &Machine) {
        for (index, (page, _)) in ROOT_PAGES.into_iter().enumerate() {
            if !holds(range, page) || !is_lent(before, page) {
                continue;
            }
            let [own, _] = places(page);
            let all = (0..PLACES).filter_map(Place::from_number);
            let heirs: Vec<Place> = all
                .filter(|&place| ancestors(before, place).any(|above| above == own))
                .collect();
            let changes = |&place: &Place| row(before, place) != row(after, place);
            let some_changed = heirs.iter().any(changes);
            let is_lost = !is_live(after, own);
            let counts = match (with_self, some_changed) {
                (true, true) if is_lost => &mut self.given_up_with_heirs,
                (true, _) if is_lost => &mut self.given_up,
                (true, _) if changes(&own) => &mut self.weakened,
                (false, true) => &mut self.revoked_below,
                (false, false) if heirs.is_empty() => &mut self.revoked_without_heirs,
                _ => continue,
            };
            counts[index] += 1;
        }
    }

    /// A LOOKUP by the root.
    pub fn looked_up(&mut self, named: Range, answer: u32) {
        if named.space != Space::Memory {
            return;
        }
        let selector = named.base.number();
        self.below_looked_up += u32::from(selector == PAGE_BELOW && answer == 0);
        for (index, (page, permissions)) in ROOT_PAGES.into_iter().enumerate() {
            if selector != page {
                continue;
            }
            let counts = match range(answer) {
                None => &mut self.looked_up_null,
                Some(found) if found.order > 0 => &mut self.looked_up_joined,
                Some(found) if found.mask == permissions => &mut self.looked_up_as_lent,
                Some(_) => continue,
            };
            counts[index] += 1;
        }
    }

    /// Every use of every page, with its count.
    pub fn counts(&self) -> Vec<(String, u32)> {
        let uses = [
            ("handed on to another domain", self.handed_on),
            ("handed on within the root", self.handed_on_within),
            ("translated back to the root", self.translated_back),
            ("revoked below, self 0", self.revoked_below),
            ("revoked without heirs, self 0", self.revoked_without_heirs),
            ("weakened, self 1", self.weakened),
            ("given up without heirs, self 1", self.given_up),
            ("given up with heirs, self 1", self.given_up_with_heirs),
            ("asked for with H while live", self.not_taken),
            ("taken again with H", self.taken_again),
            ("looked up with boot's permissions", self.looked_up_as_lent),
            ("looked up in a larger range", self.looked_up_joined),
            ("looked up when null", self.looked_up_null),
        ];
        let by_page = |(name, counts): (&str, Counts)| {
            let pages = ROOT_PAGES.into_iter().zip(counts);
            let named = pages.map(|((page, _), count)| (format!("page {page} {name}"), count));
            named.collect::<Vec<_>>()
        };
        let below = (
            format!("page {PAGE_BELOW} looked up when null"),
            self.below_looked_up,
        );
        uses.into_iter().flat_map(by_page).chain([below]).collect()
    }
}
