//! Domains, spaces, selectors, places and object numbers: a type each, so that
//! one cannot stand where another is meant.

use crate::words::{PLACES, RECORDS};

/// One of a domain's three spaces.
#[derive(Clone, Copy, PartialEq, Eq, Debug, Hash)]
pub enum Space {
    /// Pages.
    Memory = 0,
    /// Ports.
    Io = 1,
    /// Kernel objects.
    Object = 2,
}

impl Space {
    /// The order of the range that is the whole space: 6 for pages and ports, 8 for
    /// objects.
    pub const fn greatest_order(self) -> u32 {
        match self {
            Space::Memory | Space::Io => 6,
            Space::Object => 8,
        }
    }

    /// How many selectors the space has: 64 for pages and ports, 256 for objects.
    pub const fn selectors(self) -> u32 {
        1 << self.greatest_order()
    }

    /// Where the space begins among the places of its domain.
    const fn start(self) -> u32 {
        match self {
            Space::Memory => 0,
            Space::Io => Space::Memory.selectors(),
            Space::Object => Space::Io.start() + Space::Io.selectors(),
        }
    }
}

/// Protection domains.
const DOMAINS: u32 = 8;

/// Places of one domain.
const DOMAIN_PLACES: u32 = Space::Object.start() + Space::Object.selectors();

/// A selector: the position of a capability in a space of a domain.
#[derive(Clone, Copy, PartialEq, Eq, Debug, Hash)]
pub struct Selector {
    space: Space,
    number: u32,
}

impl Selector {
    /// The UTCB of the root's execution context: a page that boot lends to the root,
    /// to read and write, at this selector in the hypervisor's memory and the root's.
    pub const ROOT_UTCB_PAGE: Selector = Selector { space: Space::Memory, number: 62 };

    /// The information page, which boot lends to the root to read, at this
    /// selector in the hypervisor's memory and the root's.
    pub const INFORMATION_PAGE: Selector = Selector { space: Space::Memory, number: 63 };

    /// The selector of a space with this number, if the space has one.
    pub const fn new(space: Space, number: u32) -> Option<Selector> {
        if number < space.selectors() {
            Some(Selector { space, number })
        } else {
            None
        }
    }

    /// The space that the selector is of.
    pub const fn space(self) -> Space {
        self.space
    }

    /// The selector's number in its space.
    pub const fn number(self) -> u32 {
        self.number
    }

    /// The selector as hypercalls take it, if it is one of the object space.
    pub const fn object(self) -> Option<ObjectSelector> {
        match self.space {
            Space::Object => Some(ObjectSelector(self.number)),
            Space::Memory | Space::Io => None,
        }
    }
}

/// A selector of the object space, below 256: the only ones that hypercalls take
/// by themselves.
#[derive(Clone, Copy, PartialEq, Eq, Debug, Hash)]
pub struct ObjectSelector(u32);

impl ObjectSelector {
    /// Object selector 0.
    pub const FIRST: ObjectSelector = ObjectSelector(0);

    /// The object selector with this number, if it is below 256.
    pub const fn new(number: u32) -> Option<ObjectSelector> {
        if number < Space::Object.selectors() {
            Some(ObjectSelector(number))
        } else {
            None
        }
    }

    /// The same selector, with its space.
    pub const fn selector(self) -> Selector {
        Selector { space: Space::Object, number: self.0 }
    }

    /// The selector's number.
    pub const fn number(self) -> u32 {
        self.0
    }
}

/// A protection domain, by its number below 8.
#[derive(Clone, Copy, PartialEq, Eq, Debug, Hash)]
pub struct Domain(u32);

impl Domain {
    /// Domain 0.
    pub const HYPERVISOR: Domain = Domain(0);

    /// Domain 1.
    pub const ROOT: Domain = Domain(1);

    /// The domain with this number, if it is below 8.
    pub const fn new(number: u32) -> Option<Domain> {
        if number < DOMAINS {
            Some(Domain(number))
        } else {
            None
        }
    }

    /// The domain's number.
    pub const fn number(self) -> u32 {
        self.0
    }
}

/// A place: one selector of one space of one domain, by its number below 3,072.
#[derive(Clone, Copy, PartialEq, Eq, PartialOrd, Ord, Debug, Hash)]
pub struct Place(u32);

impl Place {
    /// The place of a selector in a domain.
    pub const fn new(domain: Domain, selector: Selector) -> Place {
        Place(domain.0 * DOMAIN_PLACES + selector.space.start() + selector.number)
    }

    /// The place with this number, if it is below 3,072.
    pub const fn from_number(number: u32) -> Option<Place> {
        if number < PLACES {
            Some(Place(number))
        } else {
            None
        }
    }

    /// The place's number.
    pub const fn number(self) -> u32 {
        self.0
    }

    /// The domain that the place belongs to.
    pub const fn domain(self) -> Domain {
        Domain(self.0 / DOMAIN_PLACES)
    }

    /// The selector that names the place in its domain.
    pub const fn selector(self) -> Selector {
        let at = self.0 % DOMAIN_PLACES;
        let space = if at < Space::Io.start() {
            Space::Memory
        } else if at < Space::Object.start() {
            Space::Io
        } else {
            Space::Object
        };
        Selector { space, number: at - space.start() }
    }
}

/// An object number: the index of an object record, below 64.
#[derive(Clone, Copy, PartialEq, Eq, Debug, Hash)]
pub struct ObjectNumber(u32);

impl ObjectNumber {
    /// The root's protection domain at boot.
    pub const ROOT_PD: ObjectNumber = ObjectNumber(28);

    /// The root's execution context at boot.
    pub const ROOT_EC: ObjectNumber = ObjectNumber(29);

    /// The root's scheduling context at boot.
    pub const ROOT_SC: ObjectNumber = ObjectNumber(30);

    /// The object with this number, if it is below 64.
    pub const fn new(number: u32) -> Option<ObjectNumber> {
        if number < RECORDS {
            Some(ObjectNumber(number))
        } else {
            None
        }
    }

    /// The object's number.
    pub const fn number(self) -> u32 {
        self.0
    }
}

#[cfg(test)]
mod tests {
    use super::*;

    const SPACES: [Space; 3] = [Space::Memory, Space::Io, Space::Object];

    #[test]
    fn every_domain_space_and_selector_is_the_next_place() {
        let mut next = 0;
        for domain in (0..8).filter_map(Domain::new) {
            for space in SPACES {
                for number in 0..space.selectors() {
                    let selector = Selector::new(space, number).expect("a selector");
                    let place = Place::new(domain, selector);
                    assert_eq!((place.number(), Place::from_number(next)), (next, Some(place)));
                    assert_eq!((place.domain(), place.selector()), (domain, selector));
                    assert_eq!((selector.space(), selector.number()), (space, number));
                    next += 1;
                }
            }
        }
        assert_eq!((next, Place::from_number(next)), (PLACES, None));
    }

    #[test]
    fn spaces_have_the_sizes_of_the_manual() {
        assert_eq!(SPACES.map(Space::selectors), [64, 64, 256]);
        assert_eq!(SPACES.map(Space::greatest_order), [6, 6, 8]);
        assert_eq!(SPACES.map(Space::start), [0, 64, 128]);
        let last = Selector::new(Space::Object, 255).expect("a selector");
        assert_eq!(Place::new(Domain(7), last).number(), 3_071);
        assert_eq!(Place::new(Domain::ROOT, Selector::INFORMATION_PAGE).number(), 447);
    }

    #[test]
    fn numbers_out_of_bounds_are_none() {
        for space in SPACES {
            assert_eq!(Selector::new(space, space.selectors()), None);
        }
        assert_eq!(ObjectSelector::new(256), None);
        let last = ObjectSelector::new(255).map(ObjectSelector::selector);
        assert_eq!(last, Selector::new(Space::Object, 255));
        assert_eq!(last.and_then(Selector::object), ObjectSelector::new(255));
        assert_eq!(Selector::INFORMATION_PAGE.object(), None);
        assert_eq!(Domain::new(8), None);
        assert_eq!(ObjectNumber::new(64), None);
    }
}
