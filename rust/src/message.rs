//! Message blocks.

use core::error::Error;
use core::fmt;

use crate::descriptor::Descriptor;
use crate::words::{self, BLOCK_WORDS, DATA_WORDS, HEADER_WORDS};

const TRANSLATE_WINDOW: usize = 1;
const DELEGATE_WINDOW: usize = 2;
const ITEM_WORDS: usize = 2;

const DELEGATE: u32 = 1;
const FROM_HYPERVISOR: u32 = 1 << 11;
const HOTSPOT_SHIFT: u32 = 12;

/// Where a received second word has the reason of a null item.
const REASON_SHIFT: u32 = 1;
const REASON_MASK: u32 = 7;

/// A message block of 64 words.
#[derive(Clone, PartialEq, Eq, Debug)]
pub struct Block([u32; BLOCK_WORDS]);

/// A typed item that a message sends.
#[derive(Clone, Copy, PartialEq, Eq, Debug)]
pub enum Item {
    /// Lends capabilities.
    Delegate {
        /// The sender's range, with the permissions to hand on as its mask.
        range: Descriptor,
        /// Which part of the larger of range and window is meant.
        hotspot: Hotspot,
        /// Whether the root hands on domain 0's capabilities instead of its own.
        from_hypervisor: bool,
    },
    /// Names capabilities that came from the receiver.
    Translate {
        /// The sender's range, with a mask.
        range: Descriptor,
    },
}

/// A delegation's hotspot: where the part that is meant lies in the larger of
/// range and window.
#[derive(Clone, Copy, PartialEq, Eq, Debug, Hash)]
pub struct Hotspot(u32);

impl Hotspot {
    /// Hotspot 0: the part where the larger range begins.
    pub const ZERO: Hotspot = Hotspot(0);

    /// The hotspot of this number, if it has at most 20 bits.
    pub const fn new(number: u32) -> Option<Hotspot> {
        if number < 1 << (u32::BITS - HOTSPOT_SHIFT) {
            Some(Hotspot(number))
        } else {
            None
        }
    }

    /// The hotspot's number.
    pub const fn number(self) -> u32 {
        self.0
    }
}

/// A typed item as it is received.
#[derive(Clone, Copy, PartialEq, Eq, Debug)]
pub enum Received {
    /// The range that was filled.
    Delegated(Descriptor),
    /// The receiver's range that the sender's came from.
    Translated(Descriptor),
    /// Nothing was delegated.
    NotDelegated(Reason),
    /// Nothing was translated.
    NotTranslated(Reason),
}

/// Why a typed item came back null: of the reasons that apply, the one of least
/// number.
#[derive(Clone, Copy, PartialEq, Eq, Debug, Hash)]
pub enum Reason {
    /// The item's descriptor is null, or its window.
    NullDescriptor,
    /// The item's descriptor is malformed, or its window.
    MalformedDescriptor,
    /// Item and window are of different spaces.
    TypesDiffer,
    /// The delegation filled no place.
    NothingFilled,
    /// The range did not come from one range of the receiver inside its window.
    TranslationBroke,
    /// A number that the interface does not list, 0 among them; CALL gives none
    /// such with a null item.
    Unknown(u32),
}

impl Reason {
    /// The reason that a received second word gives.
    const fn read(second: u32) -> Reason {
        match second >> REASON_SHIFT & REASON_MASK {
            1 => Reason::NullDescriptor,
            2 => Reason::MalformedDescriptor,
            3 => Reason::TypesDiffer,
            4 => Reason::NothingFilled,
            5 => Reason::TranslationBroke,
            number => Reason::Unknown(number),
        }
    }

    /// The interface's number for this reason.
    pub const fn number(self) -> u32 {
        match self {
            Reason::NullDescriptor => 1,
            Reason::MalformedDescriptor => 2,
            Reason::TypesDiffer => 3,
            Reason::NothingFilled => 4,
            Reason::TranslationBroke => 5,
            Reason::Unknown(number) => number,
        }
    }
}

impl fmt::Display for Reason {
    fn fmt(&self, out: &mut fmt::Formatter) -> fmt::Result {
        match self {
            Reason::NullDescriptor => out.write_str("the range or its window is null"),
            Reason::MalformedDescriptor => out.write_str("the range or its window is malformed"),
            Reason::TypesDiffer => out.write_str("range and window are of different spaces"),
            Reason::NothingFilled => out.write_str("nothing was filled"),
            Reason::TranslationBroke => {
                out.write_str("the range did not come from the receiver's window")
            }
            Reason::Unknown(number) => write!(out, "reason {number}"),
        }
    }
}

/// The mark of a message that does not fit a block.
#[derive(Clone, Copy, PartialEq, Eq, Debug)]
pub struct TooLong;

impl fmt::Display for TooLong {
    fn fmt(&self, out: &mut fmt::Formatter) -> fmt::Result {
        out.write_str("the message does not fit a block")
    }
}

impl Error for TooLong {}

impl Block {
    /// A block of zero words.
    pub const fn new() -> Block {
        Block([0; BLOCK_WORDS])
    }

    /// A block of these words.
    pub const fn from_words(words: [u32; BLOCK_WORDS]) -> Block {
        Block(words)
    }

    /// All words of the block.
    pub const fn words(&self) -> &[u32; BLOCK_WORDS] {
        &self.0
    }

    /// All words of the block, to be written.
    pub fn words_mut(&mut self) -> &mut [u32; BLOCK_WORDS] {
        &mut self.0
    }

    /// Sets where the receiver takes translated and delegated ranges.
    pub fn set_windows(&mut self, translate: Descriptor, delegate: Descriptor) {
        self.0[TRANSLATE_WINDOW] = translate.word();
        self.0[DELEGATE_WINDOW] = delegate.word();
    }

    /// Sets the message to send; one that does not fit leaves the block as it is.
    pub fn set_message(&mut self, untyped: &[u32], items: &[Item]) -> Result<(), TooLong> {
        let data = &mut self.0[HEADER_WORDS..];
        let room = data.len().checked_sub(untyped.len()).ok_or(TooLong)?;
        if items.len() > room / ITEM_WORDS {
            return Err(TooLong);
        }
        data[..untyped.len()].copy_from_slice(untyped);
        for (slot, item) in data.rchunks_exact_mut(ITEM_WORDS).zip(items) {
            let (second, range) = item.words();
            slot.copy_from_slice(&[second, range]);
        }
        self.0[0] = (items.len() as u32) << 16 | untyped.len() as u32;
        Ok(())
    }

    /// The untyped words, as a part of the block.
    pub fn untyped(&self) -> &[u32] {
        words::untyped(&self.0)
    }

    /// How many untyped words and typed items word 0 says.
    const fn counts(&self) -> (usize, usize) {
        ((self.0[0] & 0xffff) as usize, (self.0[0] >> 16) as usize)
    }

    /// The typed items of a received message, in their order; none where the
    /// counts do not fit a block.
    pub fn received(&self) -> impl Iterator<Item = Received> + '_ {
        let (untyped, typed) = self.counts();
        let fits = untyped + ITEM_WORDS * typed <= DATA_WORDS;
        let slots = self.0[HEADER_WORDS..].rchunks_exact(ITEM_WORDS);
        slots.take(if fits { typed } else { 0 }).map(|slot| {
            let (second, range) = (slot[0], Descriptor::from_word(slot[1]));
            match (second & DELEGATE, range) {
                (0, Descriptor::NULL) => Received::NotTranslated(Reason::read(second)),
                (0, _) => Received::Translated(range),
                (_, Descriptor::NULL) => Received::NotDelegated(Reason::read(second)),
                _ => Received::Delegated(range),
            }
        })
    }
}

impl Default for Block {
    fn default() -> Block {
        Block::new()
    }
}

impl Item {
    /// The second word and the descriptor.
    const fn words(self) -> (u32, u32) {
        match self {
            Item::Delegate { range, hotspot, from_hypervisor } => {
                let flag = if from_hypervisor { FROM_HYPERVISOR } else { 0 };
                (hotspot.0 << HOTSPOT_SHIFT | flag | DELEGATE, range.word())
            }
            Item::Translate { range } => (0, range.word()),
        }
    }
}

#[cfg(test)]
mod tests {
    use super::*;
    use crate::numbers::Space;

    #[test]
    fn a_message_is_laid_out_from_both_ends() {
        let range = Descriptor::new(Space::Io, 8, 2, 1).expect("a range");
        let hotspot = Hotspot::new(23).expect("a hotspot");
        let items =
            [Item::Delegate { range, hotspot, from_hypervisor: true }, Item::Translate { range }];
        let mut block = Block::new();
        assert_eq!(block.set_message(&[5, 6, 7], &items), Ok(()));
        let words = block.words();
        assert_eq!(words[0], 2 << 16 | 3);
        assert_eq!(words[4..8], [5, 6, 7, 0]);
        assert_eq!(words[60..], [0, range.word(), 23 << 12 | 1 << 11 | 1, range.word()]);
        assert_eq!(block.untyped(), [5, 6, 7]);
    }

    #[test]
    fn a_message_that_does_not_fit_changes_nothing() {
        let item = Item::Translate { range: Descriptor::NULL };
        let mut block = Block::new();
        assert_eq!(block.set_message(&[1; 61], &[]), Err(TooLong));
        assert_eq!(block.set_message(&[1; 59], &[item]), Err(TooLong));
        assert_eq!(block.set_message(&[], &[item; 31]), Err(TooLong));
        assert_eq!(block, Block::new());
        assert_eq!(block.set_message(&[1; 60], &[]), Ok(()));
        assert_eq!(block.set_message(&[], &[item; 30]), Ok(()));
        let unsent = Received::NotTranslated(Reason::Unknown(0));
        assert!(block.received().eq([unsent; 30]));
    }

    #[test]
    fn a_hotspot_that_does_not_fit_is_not_made() {
        let greatest = Hotspot::new((1 << 20) - 1).expect("a hotspot");
        let item =
            Item::Delegate { range: Descriptor::NULL, hotspot: greatest, from_hypervisor: false };
        assert_eq!(item.words(), (0xffff_f001, 0));
        assert_eq!(Hotspot::new(0), Some(Hotspot::ZERO));
        assert_eq!(Hotspot::new(1 << 20), None);
        assert_eq!(Hotspot::new(u32::MAX), None);
    }

    #[test]
    fn counts_that_do_not_fit_have_no_parts() {
        let with = |untyped: u32, typed: u32| {
            let mut words = [7; BLOCK_WORDS];
            words[0] = typed << 16 | untyped;
            let block = Block::from_words(words);
            (block.untyped().len(), block.received().count())
        };
        assert_eq!(with(0, 30), (0, 30));
        assert_eq!(with(58, 1), (58, 1));
        assert_eq!(with(60, 0), (60, 0));
        assert_eq!(with(1, 30), (0, 0));
        assert_eq!(with(59, 1), (0, 0));
        assert_eq!(with(61, 0), (0, 0));
        assert_eq!(with(0, 31), (0, 0));
        assert_eq!(with(0xffff, 0xffff), (0, 0));
    }

    #[test]
    fn a_received_descriptor_of_type_0_is_null() {
        let mut words = [0; BLOCK_WORDS];
        words[0] = 2 << 16;
        words[60..].copy_from_slice(&[3, 4096, 2, 0xffff_fffc]);
        let reason = Reason::NullDescriptor;
        let received = [Received::NotTranslated(reason), Received::NotDelegated(reason)];
        assert!(Block::from_words(words).received().eq(received));
    }

    #[test]
    fn every_reason_has_its_number() {
        for (number, reason) in [
            (1, Reason::NullDescriptor),
            (2, Reason::MalformedDescriptor),
            (3, Reason::TypesDiffer),
            (4, Reason::NothingFilled),
            (5, Reason::TranslationBroke),
            (0, Reason::Unknown(0)),
            (6, Reason::Unknown(6)),
            (7, Reason::Unknown(7)),
        ] {
            for other_bits in [0, 1, 16, 0xffff_fff1] {
                assert_eq!(Reason::read(number << 1 | other_bits), reason);
            }
            assert_eq!(reason.number(), number);
        }
    }
}
