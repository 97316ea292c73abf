//! The rules of sound tables: a report of the first rule broken, rule by rule,
//! and a fused test with the same verdict that reads every word once.

use crate::boot::{BOOT_HYPERVISOR, BOOT_OBJECTS, HYPERVISOR_PLACES, ROOT_PD, ROOT_SC};
use crate::layout::{
    CPUS, DEPTH_LIMIT, DOMAINS, DOMAIN_PLACES, FRAMES, OBJECTS, OBJECT_WIDTH, PLACES,
    PRIORITY_LIMIT, QUANTUM_LIMIT, SELECTORS, SPACES, SPACE_START,
};
use crate::tables::{
    object_table, place_table, ObjectKind, ObjectRow, ObjectTable, Place, PlaceRow, PlaceTable,
    Space, FREE, IO_PERMISSIONS, MEMORY_PERMISSIONS, NAMED_WORDS, NULL_PLACE, OBJECT_PERMISSIONS,
};

/// Where a rule is broken.
#[derive(Clone, Copy, PartialEq, Eq, Debug)]
pub enum Location {
    Record(u32),
    Place(u32),
    /// The lengths are wrong, so no record or place is to blame.
    Nowhere,
}

/// The first broken rule, by its number from 1 to 12, and the lowest record
/// that breaks it, or else the lowest place.
#[derive(Clone, Copy, PartialEq, Eq, Debug)]
pub struct Damage {
    pub rule: u32,
    pub at: Location,
}

const PD: u32 = ObjectKind::Pd as u32;
const EC: u32 = ObjectKind::Ec as u32;
const SC: u32 = ObjectKind::Sc as u32;
const PT: u32 = ObjectKind::Pt as u32;
const SM: u32 = ObjectKind::Sm as u32;

/// The first broken rule, if any.
pub fn damage(places: &[u32], objects: &[u32]) -> Option<Damage> {
    let (Some(places), Some(objects)) = (place_table(places), object_table(objects)) else {
        return Some(Damage {
            rule: 1,
            at: Location::Nowhere,
        });
    };
    let report = Report { places, objects };
    let record_rules: [(u32, RecordRule); 7] = [
        (3, Report::breaks_interrupts),
        (4, Report::breaks_kinds),
        (5, Report::breaks_used_first),
        (6, Report::breaks_numbering),
        (7, Report::breaks_execution_context),
        (8, Report::breaks_scheduling_context),
        (9, Report::breaks_portal),
    ];
    let place_rules: [(u32, PlaceRule); 3] = [
        (10, Report::breaks_null),
        (11, Report::breaks_capability),
        (12, Report::breaks_depth),
    ];
    report
        .record(2, Report::breaks_boot_record)
        .or_else(|| report.place(2, Report::breaks_hypervisor))
        .or_else(|| {
            record_rules
                .iter()
                .find_map(|&(rule, broken)| report.record(rule, broken))
        })
        .or_else(|| {
            place_rules
                .iter()
                .find_map(|&(rule, broken)| report.place(rule, broken))
        })
}

type RecordRule<'a> = fn(&Report<'a>, usize, &ObjectRow) -> bool;
type PlaceRule<'a> = fn(&Report<'a>, usize, &PlaceRow) -> bool;

/// Tables of the right lengths under report. A report asks each rule only when
/// the ones before it hold; each has its answer without them too.
struct Report<'a> {
    places: &'a PlaceTable,
    objects: &'a ObjectTable,
}

impl<'a> Report<'a> {
    fn record(&self, rule: u32, broken: RecordRule<'a>) -> Option<Damage> {
        let at = (0..OBJECTS).find(|&at| broken(self, at, &self.objects[at]))?;
        Some(Damage {
            rule,
            at: Location::Record(at as u32),
        })
    }

    fn place(&self, rule: u32, broken: PlaceRule<'a>) -> Option<Damage> {
        let at = (0..PLACES).find(|&at| broken(self, at, &self.places[at]))?;
        Some(Damage {
            rule,
            at: Location::Place(at as u32),
        })
    }

    fn breaks_boot_record(&self, at: usize, row: &ObjectRow) -> bool {
        fixed_at_boot(at as u32) && *row != BOOT_OBJECTS[at]
    }

    fn breaks_hypervisor(&self, at: usize, row: &PlaceRow) -> bool {
        at < HYPERVISOR_PLACES && *row != BOOT_HYPERVISOR[at]
    }

    fn breaks_interrupts(&self, at: usize, row: &ObjectRow) -> bool {
        (CPUS..ROOT_PD).contains(&(at as u32)) && row[0] != SM
    }

    fn breaks_kinds(&self, _: usize, row: &ObjectRow) -> bool {
        match NAMED_WORDS.get(row[0] as usize) {
            // The words of a free record are the next rule's.
            Some(&named) => row[0] != FREE && row[named..].iter().any(|&word| word != 0),
            None => true,
        }
    }

    fn breaks_used_first(&self, at: usize, row: &ObjectRow) -> bool {
        if row[0] == FREE {
            *row != [0; OBJECT_WIDTH]
        } else {
            self.objects[..at].iter().any(|earlier| earlier[0] == FREE)
        }
    }

    fn breaks_numbering(&self, at: usize, row: &ObjectRow) -> bool {
        let position = self.objects[..=at]
            .iter()
            .filter(|row| row[0] == PD)
            .count() as u32;
        row[0] == PD && (row[1] != position || row[1] >= DOMAINS)
    }

    fn breaks_execution_context(&self, _: usize, row: &ObjectRow) -> bool {
        row[0] == EC
            && (!self.has_pd(row[1]) || row[2] >= CPUS || row[3] >= Space::Object.selectors())
    }

    fn breaks_scheduling_context(&self, at: usize, row: &ObjectRow) -> bool {
        at as u32 >= CPUS
            && row[0] == SC
            && (!self.is_execution_context(row[1])
                || !(1..=PRIORITY_LIMIT).contains(&row[2])
                || !(1..=QUANTUM_LIMIT).contains(&row[3]))
    }

    fn breaks_portal(&self, _: usize, row: &ObjectRow) -> bool {
        row[0] == PT && !self.is_execution_context(row[1])
    }

    fn breaks_null(&self, _: usize, row: &PlaceRow) -> bool {
        row[1] == 0 && *row != NULL_PLACE
    }

    fn breaks_capability(&self, at: usize, row: &PlaceRow) -> bool {
        let Some(place) = Place::from_number(at as u32) else {
            return true;
        };
        row[1] != 0 && !self.is_capability(place, row)
    }

    fn breaks_depth(&self, _: usize, row: &PlaceRow) -> bool {
        row[3] > DEPTH_LIMIT
    }

    fn is_capability(&self, place: Place, row: &PlaceRow) -> bool {
        let &[resource, permissions, parent, depth] = row;
        let domain = place.domain().number();
        let space = place.space();
        let greatest = match space {
            Space::Memory if resource < FRAMES => MEMORY_PERMISSIONS,
            Space::Io if resource < FRAMES => IO_PERMISSIONS,
            Space::Object => self.greatest_of_object(resource),
            _ => 0,
        };
        let descends = match parent.checked_sub(1) {
            None => depth == 0 && (domain == 0 || space == Space::Object),
            Some(number) => Place::from_number(number).is_some_and(|parent| {
                let above = &self.places[number as usize];
                above[1] != 0
                    && parent.space() == space
                    && above[0] == resource
                    && permissions & !above[1] == 0
                    && above[3].checked_add(1) == Some(depth)
            }),
        };
        (domain == 0 || self.has_pd(domain)) && permissions & !greatest == 0 && descends
    }

    /// Greatest permissions on an object; none on a free record, one of a kind above 5 or
    /// one that is not there.
    fn greatest_of_object(&self, number: u32) -> u32 {
        let record = self.objects.get(number as usize);
        record
            .and_then(|row| OBJECT_PERMISSIONS.get(row[0] as usize))
            .map_or(0, |&greatest| greatest)
    }

    fn has_pd(&self, domain: u32) -> bool {
        self.objects
            .iter()
            .any(|row| row[0] == PD && row[1] == domain)
    }

    fn is_execution_context(&self, number: u32) -> bool {
        self.objects
            .get(number as usize)
            .is_some_and(|row| row[0] == EC)
    }
}

/// Whether a place is live and keeps the rules 11 and 12, whatever other rules are broken.
pub(crate) fn is_live_and_keeps_its_rules(
    places: &PlaceTable,
    objects: &ObjectTable,
    place: Place,
) -> bool {
    let report = Report { places, objects };
    let number = place.number() as usize;
    let row = &places[number];
    row[1] != 0 && !report.breaks_capability(number, row) && !report.breaks_depth(number, row)
}

/// Whether a record must stay as it was at boot.
const fn fixed_at_boot(number: u32) -> bool {
    number < CPUS || (ROOT_PD <= number && number <= ROOT_SC)
}

/// Whether no rule is broken.
pub fn is_sound(places: &[u32], objects: &[u32]) -> bool {
    match (place_table(places), object_table(objects)) {
        (Some(places), Some(objects)) => rows_are_sound(places, objects),
        _ => false,
    }
}

/// Whether tables of the right lengths break no rule, in one pass over each.
pub(crate) fn rows_are_sound(places: &PlaceTable, objects: &ObjectTable) -> bool {
    places[..HYPERVISOR_PLACES] == BOOT_HYPERVISOR
        && check_objects(objects).is_some_and(|found| places_are_sound(places, &found))
}

/// What the object table tells about the places that may name its objects.
struct ObjectFacts {
    /// Domains from 1 to this number have a PD.
    domains: u32,
    /// Greatest permissions for each object number; none for a free record.
    greatest: [u32; OBJECTS],
}

/// Rules 2 to 9 on the records.
fn check_objects(objects: &ObjectTable) -> Option<ObjectFacts> {
    const { assert!(OBJECTS <= 64, "a set of objects is one word of 64 bits") };
    let mut facts = ObjectFacts {
        domains: 0,
        greatest: [0; OBJECTS],
    };
    // The execution contexts, those that others name, and the furthest domain of one.
    let (mut contexts, mut named) = (0u64, 0u64);
    let mut furthest = 0;
    let mut used = 0;
    while used < OBJECTS {
        let number = used as u32;
        let row = &objects[used];
        let &[kind, a, b, c, d] = row;
        let good = match kind {
            PD => {
                facts.domains += 1;
                a == facts.domains && a < DOMAINS && b | c | d == 0
            }
            EC => {
                contexts |= 1 << used;
                furthest = a.max(furthest);
                a != 0 && b < CPUS && c < Space::Object.selectors() && d == 0
            }
            SC if number < CPUS => true, // compared with boot below
            SC => {
                named |= 1u64.checked_shl(a)?;
                b.wrapping_sub(1) < PRIORITY_LIMIT && c.wrapping_sub(1) < QUANTUM_LIMIT && d == 0
            }
            PT => {
                named |= 1u64.checked_shl(a)?;
                true
            }
            SM => b | c | d == 0,
            FREE => break,
            _ => false,
        };
        let fixed = fixed_at_boot(number);
        if !good
            || (fixed && *row != BOOT_OBJECTS[used])
            || (!fixed && number < ROOT_PD && kind != SM)
        {
            return None;
        }
        facts.greatest[used] = OBJECT_PERMISSIONS[kind as usize];
        used += 1;
    }
    let rest_free = objects[used..]
        .as_flattened()
        .iter()
        .fold(0, |bits, word| bits | word)
        == 0;
    // The root SC is the last record that must be there.
    (used > ROOT_SC as usize && rest_free && named & !contexts == 0 && furthest <= facts.domains)
        .then_some(facts)
}

/// Places looked at together, so that null ones are passed over quickly.
const GROUP: usize = 8;

/// Rules 10 to 12, and 11's tie to the objects, for the domains above 0.
fn places_are_sound(places: &PlaceTable, facts: &ObjectFacts) -> bool {
    const {
        let mut space = 0;
        while space < SPACES {
            assert!((SELECTORS[space] as usize).is_multiple_of(GROUP));
            space += 1;
        }
    }
    for domain in 1..DOMAINS {
        for space in Space::ALL {
            let start = (domain * DOMAIN_PLACES + SPACE_START[space as usize]) as usize;
            let rows = &places[start..start + space.selectors() as usize];
            for group in rows.as_chunks::<GROUP>().0 {
                let bits = group
                    .as_flattened()
                    .iter()
                    .fold(0, |bits, word| bits | word);
                if bits == 0 {
                    continue;
                }
                if domain > facts.domains
                    || !group
                        .iter()
                        .all(|row| row_is_sound(row, space, places, facts))
                {
                    return false;
                }
            }
        }
    }
    true
}

/// Rules 10 to 12 for one place of a domain that has a PD.
#[inline]
fn row_is_sound(row: &PlaceRow, space: Space, places: &PlaceTable, facts: &ObjectFacts) -> bool {
    let &[resource, permissions, parent, depth] = row;
    if permissions == 0 {
        return resource | parent | depth == 0;
    }
    if parent == 0 {
        // Without a parent outside domain 0, only an object capability is sound.
        return space == Space::Object
            && depth == 0
            && facts
                .greatest
                .get(resource as usize)
                .is_some_and(|greatest| permissions & !greatest == 0);
    }
    // The parent's permissions bound these, and by induction on depth the
    // parent's own resource and greatest permissions hold for this place too.
    let number = parent - 1;
    places.get(number as usize).is_some_and(|above| {
        let within = (number % DOMAIN_PLACES).wrapping_sub(SPACE_START[space as usize]);
        within < space.selectors()
            && above[0] == resource
            && permissions & !above[1] == 0
            && depth.wrapping_sub(1) == above[3]
            && depth.wrapping_sub(1) < DEPTH_LIMIT
    })
}
