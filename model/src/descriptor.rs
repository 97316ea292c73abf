//! Range descriptors: a word that names an aligned run of selectors in one
//! space, with a permission mask.

use crate::tables::{Domain, Place, Selector, Space};

const TYPE_BITS: u32 = 2;
const MASK_BITS: u32 = 5;
const ORDER_BITS: u32 = 5;
const MASK_SHIFT: u32 = TYPE_BITS;
const ORDER_SHIFT: u32 = MASK_SHIFT + MASK_BITS;
const BASE_SHIFT: u32 = ORDER_SHIFT + ORDER_BITS;

const fn low_bits(count: u32) -> u32 {
    (1 << count) - 1
}

/// All bits of a mask.
pub const FULL_MASK: u32 = low_bits(MASK_BITS);

/// A descriptor word as it stands in an argument or a message block.
#[derive(Clone, Copy, PartialEq, Eq, Debug)]
pub struct Descriptor(u32);

/// The mark of a descriptor whose order, alignment or end is out of bounds.
#[derive(Clone, Copy, PartialEq, Eq, Debug)]
pub struct Malformed;

impl Descriptor {
    /// The descriptor of no range.
    pub const NULL: Descriptor = Descriptor(0);

    /// Reads a word; every word of type 0 is the null descriptor.
    pub const fn from_word(word: u32) -> Descriptor {
        if word & low_bits(TYPE_BITS) == 0 {
            Descriptor::NULL
        } else {
            Descriptor(word)
        }
    }

    /// Packs a base, an order and a mask, each cut to its field.
    pub const fn new(space: Space, base: u32, order: u32, mask: u32) -> Descriptor {
        Descriptor(
            (base << BASE_SHIFT)
                | ((order & low_bits(ORDER_BITS)) << ORDER_SHIFT)
                | ((mask & low_bits(MASK_BITS)) << MASK_SHIFT)
                | (space as u32 + 1),
        )
    }

    pub const fn word(self) -> u32 {
        self.0
    }

    /// The space by the type bits; the null descriptor has none.
    pub const fn space(self) -> Option<Space> {
        match self.0 & low_bits(TYPE_BITS) {
            1 => Some(Space::Memory),
            2 => Some(Space::Io),
            3 => Some(Space::Object),
            _ => None,
        }
    }

    /// The range named: none for the null descriptor, an error for a malformed one.
    pub const fn range(self) -> Result<Option<Range>, Malformed> {
        let Some(space) = self.space() else {
            return Ok(None);
        };
        let base = self.0 >> BASE_SHIFT;
        let order = (self.0 >> ORDER_SHIFT) & low_bits(ORDER_BITS);
        if order > space.order_limit() || (base != 0 && base.trailing_zeros() < order) {
            return Err(Malformed);
        }
        // A base of 20 bits and an order this small cannot overflow the sum.
        if !matches!(space, Space::Object) && base + (1 << order) > space.selectors() {
            return Err(Malformed);
        }
        Ok(Some(Range {
            space,
            base: Selector::wrapped(base, space),
            order,
            mask: (self.0 >> MASK_SHIFT) & low_bits(MASK_BITS),
        }))
    }
}

/// A well-formed range: its base is aligned and it ends inside its space.
#[derive(Clone, Copy, PartialEq, Eq, Debug)]
pub struct Range {
    pub space: Space,
    pub base: Selector,
    pub order: u32,
    pub mask: u32,
}

impl Range {
    /// Number of selectors.
    pub const fn length(self) -> u32 {
        1 << self.order
    }

    pub const fn descriptor(self) -> Descriptor {
        Descriptor::new(self.space, self.base.number(), self.order, self.mask)
    }

    /// The range's places in a domain, rising.
    pub fn places(self, domain: Domain) -> impl Iterator<Item = Place> {
        (0..self.length()).map(move |offset| self.place(domain, offset))
    }

    /// The place at an offset below the length.
    pub fn place(self, domain: Domain, offset: u32) -> Place {
        let selector = Selector::wrapped(self.base.number() + offset, self.space);
        Place::new(domain, self.space, selector)
    }

    /// The part of this range, of a smaller or equal order, that a hotspot picks.
    pub fn part(self, order: u32, hotspot: u32) -> Range {
        let raise = (hotspot % self.length()) >> order << order;
        Range {
            base: Selector::wrapped(self.base.number() + raise, self.space),
            order,
            ..self
        }
    }

    /// Whether a range of this order at a selector lies inside this range.
    pub fn covers(self, base: Selector, order: u32) -> bool {
        let (from, start) = (self.base.number(), base.number());
        from <= start && start + (1 << order) <= from + self.length()
    }
}
