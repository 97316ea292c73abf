//! Range descriptors.

use crate::numbers::{Selector, Space};

const TYPE_BITS: u32 = 3;
const MASK_SHIFT: u32 = 2;
const ORDER_SHIFT: u32 = 7;
const BASE_SHIFT: u32 = 12;

/// A descriptor word: an aligned run of selectors in one space, with a mask of
/// permissions.
#[derive(Clone, Copy, PartialEq, Eq, Debug, Hash)]
pub struct Descriptor(u32);

impl Descriptor {
    /// The descriptor of no range.
    pub const NULL: Descriptor = Descriptor(0);

    /// The mask with all five bits.
    pub const FULL_MASK: u32 = 31;

    /// A range of 2^order selectors of a space from a base on: the base is a selector
    /// there and a multiple of 2^order, the order at most the space's greatest and the
    /// mask at most 31.
    pub const fn new(space: Space, base: u32, order: u32, mask: u32) -> Option<Descriptor> {
        let is_inside = order <= space.greatest_order() && base < space.selectors();
        if !is_inside || !base.is_multiple_of(1 << order) || mask > Descriptor::FULL_MASK {
            return None;
        }
        let fields = base << BASE_SHIFT | order << ORDER_SHIFT | mask << MASK_SHIFT;
        Some(Descriptor(fields | (space as u32 + 1)))
    }

    /// The range of one selector, of its space; the mask is at most 31.
    pub const fn at(selector: Selector, mask: u32) -> Option<Descriptor> {
        Descriptor::new(selector.space(), selector.number(), 0, mask)
    }

    /// Any word as a descriptor, well-formed or not. Every word of type 0, whatever
    /// its other bits are, is the null descriptor.
    pub const fn from_word(word: u32) -> Descriptor {
        if word & TYPE_BITS == 0 {
            Descriptor::NULL
        } else {
            Descriptor(word)
        }
    }

    /// The descriptor as a word.
    pub const fn word(self) -> u32 {
        self.0
    }

    /// The space of the range; none for a null descriptor.
    pub const fn space(self) -> Option<Space> {
        match self.0 & TYPE_BITS {
            1 => Some(Space::Memory),
            2 => Some(Space::Io),
            3 => Some(Space::Object),
            _ => None,
        }
    }

    /// The first selector.
    pub const fn base(self) -> u32 {
        self.0 >> BASE_SHIFT
    }

    /// The range has 2^order selectors.
    pub const fn order(self) -> u32 {
        self.0 >> ORDER_SHIFT & 31
    }

    /// The mask, or the permissions in an answer of LOOKUP.
    pub const fn mask(self) -> u32 {
        self.0 >> MASK_SHIFT & 31
    }
}

#[cfg(test)]
mod tests {
    use super::*;

    #[test]
    fn fields_make_the_word() {
        let found = Descriptor::new(Space::Object, 40, 0, 3).expect("a range");
        assert_eq!(found.word(), 163_855);
        assert_eq!(found.space(), Some(Space::Object));
        assert_eq!((found.base(), found.order(), found.mask()), (40, 0, 3));
        assert_eq!(Descriptor::from_word(163_855), found);
        assert_eq!(Descriptor::NULL.space(), None);
    }

    #[test]
    fn every_word_of_type_0_is_the_null_descriptor() {
        for word in [0, 4, 128, 4096, 0xffff_fffc] {
            assert_eq!(Descriptor::from_word(word), Descriptor::NULL);
            assert_eq!(Descriptor::from_word(word).word(), 0);
            for kind in 1..4 {
                assert_eq!(Descriptor::from_word(word | kind).word(), word | kind);
            }
        }
    }

    #[test]
    fn a_malformed_range_is_not_made() {
        let word = |space, base, order, mask| {
            Descriptor::new(space, base, order, mask).map(Descriptor::word)
        };
        for space in [Space::Memory, Space::Io] {
            assert!(word(space, 8, 3, 31).is_some() && word(space, 0, 6, 0).is_some());
            assert_eq!(word(space, 4, 3, 31), None);
            assert_eq!(word(space, 0, 7, 31), None);
            assert_eq!(word(space, 64, 0, 31), None);
            assert_eq!(word(space, 0, 0, 32), None);
        }
        assert_eq!(word(Space::Object, 64, 0, 0), Some(262_147));
        assert_eq!(word(Space::Object, 0, 7, 0), Some(899));
        assert_eq!(word(Space::Object, 0, 8, 0), Some(1_027));
        assert_eq!(word(Space::Object, 0, 9, 0), None);
        assert_eq!(word(Space::Object, 64, 8, 0), None);
        assert_eq!(word(Space::Object, 256, 0, 0), None);
    }

    #[test]
    fn one_selector_is_a_range_of_order_0() {
        let page = Descriptor::at(Selector::INFORMATION_PAGE, Descriptor::FULL_MASK);
        assert_eq!(page.map(Descriptor::word), Some(258_173));
        assert_eq!(Descriptor::at(Selector::INFORMATION_PAGE, 32), None);
    }
}
