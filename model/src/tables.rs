//! The place table and the object table, and the numbers that index them.
//!
//! Selectors, places, domains and object numbers are types of their own, so
//! that one cannot stand where another is meant.

use crate::damage;
use crate::layout::{
    DOMAINS, DOMAIN_PLACES, OBJECTS, OBJECT_WIDTH, PLACES, PLACE_WIDTH, SELECTORS, SPACE_START,
};

/// One of a domain's three spaces.
#[derive(Clone, Copy, PartialEq, Eq, Debug)]
#[repr(u32)]
pub enum Space {
    Memory = 0,
    Io = 1,
    Object = 2,
}

impl Space {
    pub const ALL: [Space; 3] = [Space::Memory, Space::Io, Space::Object];

    /// Number of selectors in this space.
    pub const fn selectors(self) -> u32 {
        SELECTORS[self as usize]
    }

    /// Largest order of a range in this space.
    pub const fn order_limit(self) -> u32 {
        self.selectors().trailing_zeros()
    }

    /// All permissions that capabilities of this space can have; a PD has those of every object.
    pub const fn greatest_permissions(self) -> u32 {
        match self {
            Space::Memory => MEMORY_PERMISSIONS,
            Space::Io => IO_PERMISSIONS,
            Space::Object => ObjectKind::Pd.greatest_permissions(),
        }
    }
}

/// A selector: the position of a capability in one space of one domain.
#[derive(Clone, Copy, PartialEq, Eq, Debug)]
pub struct Selector(u32);

impl Selector {
    /// The selector that a word names in a space whose selectors wrap.
    pub const fn wrapped(word: u32, space: Space) -> Selector {
        Selector(word % space.selectors())
    }

    pub const fn number(self) -> u32 {
        self.0
    }
}

/// A domain number below `DOMAINS`.
#[derive(Clone, Copy, PartialEq, Eq, Debug)]
pub struct Domain(u32);

impl Domain {
    pub const HYPERVISOR: Domain = Domain(0);
    pub const ROOT: Domain = Domain(1);

    pub fn new(number: u32) -> Option<Domain> {
        (number < DOMAINS).then_some(Domain(number))
    }

    pub const fn number(self) -> u32 {
        self.0
    }
}

/// A place: one selector of one space of one domain, by its number.
#[derive(Clone, Copy, PartialEq, Eq, PartialOrd, Ord, Debug)]
pub struct Place(u32);

impl Place {
    pub const fn new(domain: Domain, space: Space, selector: Selector) -> Place {
        Place(domain.0 * DOMAIN_PLACES + SPACE_START[space as usize] + selector.0)
    }

    pub fn from_number(number: u32) -> Option<Place> {
        (number < PLACES as u32).then_some(Place(number))
    }

    /// Reads a parent word, which is a place number plus 1, or 0 for none.
    fn from_parent_word(word: u32) -> Option<Place> {
        Place::from_number(word.wrapping_sub(1))
    }

    pub const fn number(self) -> u32 {
        self.0
    }

    pub const fn domain(self) -> Domain {
        Domain(self.0 / DOMAIN_PLACES)
    }

    pub const fn space(self) -> Space {
        let within = self.0 % DOMAIN_PLACES;
        if within < SPACE_START[1] {
            Space::Memory
        } else if within < SPACE_START[2] {
            Space::Io
        } else {
            Space::Object
        }
    }

    pub const fn selector(self) -> Selector {
        Selector(self.0 % DOMAIN_PLACES - SPACE_START[self.space() as usize])
    }

    const fn index(self) -> usize {
        self.0 as usize
    }
}

/// An object number: the index of an object record.
#[derive(Clone, Copy, PartialEq, Eq, Debug)]
pub struct Object(u32);

impl Object {
    pub fn new(number: u32) -> Option<Object> {
        (number < OBJECTS as u32).then_some(Object(number))
    }

    pub const fn number(self) -> u32 {
        self.0
    }

    const fn index(self) -> usize {
        self.0 as usize
    }
}

/// Kinds of kernel objects; the numbers are those of the kind word.
#[derive(Clone, Copy, PartialEq, Eq, Debug)]
#[repr(u32)]
pub enum ObjectKind {
    /// Protection domain: domain.
    Pd = 1,
    /// Execution context: domain, CPU, event base.
    Ec = 2,
    /// Scheduling context: EC, priority, quantum.
    Sc = 3,
    /// Portal: EC, message transfer descriptor, entry IP, identifier.
    Pt = 4,
    /// Semaphore: count.
    Sm = 5,
}

/// ObjectKind word of a free record.
pub const FREE: u32 = 0;

/// Greatest permissions of an object capability, by kind word; none for a free record.
pub const OBJECT_PERMISSIONS: [u32; 6] = [0, 31, 7, 1, 3, 3];

/// Greatest permissions of a memory capability: read, write, execute.
pub const MEMORY_PERMISSIONS: u32 = 7;

/// Permission of a memory capability to read its page.
pub const READ_PAGE: u32 = 1;

/// Permission of a memory capability to write its page.
pub const WRITE_PAGE: u32 = 2;

/// Greatest permissions of an I/O capability.
pub const IO_PERMISSIONS: u32 = 1;

/// Words of an object record that have a name, the kind word included, by kind word.
pub const NAMED_WORDS: [usize; 6] = [1, 2, 4, 4, 5, 2];

impl ObjectKind {
    pub const fn greatest_permissions(self) -> u32 {
        OBJECT_PERMISSIONS[self as usize]
    }

    /// The permission of a PD capability that lets objects of this kind be created.
    pub const fn create_permission(self) -> u32 {
        1 << (self as u32 - 1)
    }
}

/// Permission of an EC capability to bind a scheduling context to it.
pub const BIND_SC: u32 = 2;

/// Permission of an EC capability to bind a portal to it.
pub const BIND_PT: u32 = 4;

/// Permission of a portal capability to call through it.
pub const CALL_PT: u32 = 2;

/// What a live place holds.
#[derive(Clone, Copy, PartialEq, Eq, Debug)]
pub struct Capability {
    pub resource: u32,
    pub permissions: u32,
    pub parent: Option<Place>,
    pub depth: u32,
}

/// The words of a place, and of a null one.
pub type PlaceRow = [u32; PLACE_WIDTH];
pub type ObjectRow = [u32; OBJECT_WIDTH];
pub const NULL_PLACE: PlaceRow = [0; PLACE_WIDTH];

pub type PlaceTable = [PlaceRow; PLACES];
pub type ObjectTable = [ObjectRow; OBJECTS];

/// Reads words as a place table, if there are as many as it takes.
pub fn place_table(words: &[u32]) -> Option<&PlaceTable> {
    match words.as_chunks() {
        (rows, []) => rows.try_into().ok(),
        _ => None,
    }
}

/// Reads words as an object table, if there are as many as it takes.
pub fn object_table(words: &[u32]) -> Option<&ObjectTable> {
    match words.as_chunks() {
        (rows, []) => rows.try_into().ok(),
        _ => None,
    }
}

/// The capability at a place of a sound table, or nothing if the place is null.
pub fn capability(places: &PlaceTable, place: Place) -> Option<Capability> {
    let [resource, permissions, parent, depth] = places[place.index()];
    (permissions != 0).then(|| Capability {
        resource,
        permissions,
        parent: Place::from_parent_word(parent),
        depth,
    })
}

/// The place that a place's capability was delegated from.
pub fn parent(places: &PlaceTable, place: Place) -> Option<Place> {
    Place::from_parent_word(places[place.index()][2])
}

/// Both tables, found sound when they were lent or known to be.
pub struct Tables<'a> {
    pub places: &'a mut PlaceTable,
    pub objects: &'a mut ObjectTable,
}

impl<'a> Tables<'a> {
    /// Lends both tables if they have the right lengths.
    pub fn sized(places: &'a mut [u32], objects: &'a mut [u32]) -> Option<Tables<'a>> {
        let (places, []) = places.as_chunks_mut() else {
            return None;
        };
        let (objects, []) = objects.as_chunks_mut() else {
            return None;
        };
        Some(Tables {
            places: places.try_into().ok()?,
            objects: objects.try_into().ok()?,
        })
    }

    /// Lends both tables if they are sound.
    pub fn sound(places: &'a mut [u32], objects: &'a mut [u32]) -> Option<Tables<'a>> {
        Tables::sized(places, objects)
            .filter(|tables| damage::rows_are_sound(tables.places, tables.objects))
    }

    pub fn capability(&self, place: Place) -> Option<Capability> {
        capability(self.places, place)
    }

    pub fn is_null(&self, place: Place) -> bool {
        self.places[place.index()][1] == 0
    }

    pub fn fill(&mut self, place: Place, capability: Capability) {
        let parent = capability.parent.map_or(0, |parent| parent.number() + 1);
        self.places[place.index()] = [
            capability.resource,
            capability.permissions,
            parent,
            capability.depth,
        ];
    }

    /// Removes the mask's permissions from a place; one left without any becomes null.
    pub fn remove(&mut self, place: Place, mask: u32) {
        let row = &mut self.places[place.index()];
        row[1] &= !mask;
        if row[1] == 0 {
            *row = NULL_PLACE;
        }
    }

    /// The words after the kind word, if the object is of this kind.
    pub fn object(&self, object: Object, kind: ObjectKind) -> Option<[u32; 4]> {
        match self.objects[object.index()] {
            [word, rest @ ..] if word == kind as u32 => Some(rest),
            _ => None,
        }
    }

    pub fn set_object(&mut self, object: Object, kind: ObjectKind, words: [u32; 4]) {
        let [a, b, c, d] = words;
        self.objects[object.index()] = [kind as u32, a, b, c, d];
    }

    /// The object of this kind that a selector word of a domain names with these permissions.
    pub fn named(
        &self,
        domain: Domain,
        word: u32,
        kind: ObjectKind,
        permissions: u32,
    ) -> Option<(Object, [u32; 4])> {
        let selector = Selector::wrapped(word, Space::Object);
        let capability = self.capability(Place::new(domain, Space::Object, selector))?;
        if capability.permissions & permissions != permissions {
            return None;
        }
        let object = Object::new(capability.resource)?;
        Some((object, self.object(object, kind)?))
    }

    /// The lowest free record.
    pub fn free_object(&self) -> Option<Object> {
        let index = self.objects.iter().position(|row| row[0] == FREE)?;
        Object::new(index as u32)
    }

    /// The domain after those that have a PD.
    pub fn next_domain(&self) -> Option<Domain> {
        let pds = self
            .objects
            .iter()
            .filter(|row| row[0] == ObjectKind::Pd as u32);
        Domain::new(pds.count() as u32 + 1)
    }
}
