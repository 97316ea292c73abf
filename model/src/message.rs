//! CALL and the message block: untyped words upward from the first data word,
//! typed items downward from the last.

use crate::calls::{delegate_range, execution_context, Caller};
use crate::descriptor::{Descriptor, Malformed, Range};
use crate::layout::{BLOCK_WORDS, DATA_WORDS, HEADER_WORDS};
use crate::status::Status;
use crate::tables::{
    capability, parent, Domain, Object, ObjectKind, Place, PlaceTable, Tables, CALL_PT,
};

/// Block words that hold the receiver's windows.
const TRANSLATE_WINDOW: usize = 1;
const DELEGATE_WINDOW: usize = 2;

/// Bits of an item's second word, as sent; only the first arrives.
const ITEM_DELEGATE: u32 = 1;
const ITEM_HYPERVISOR: u32 = 1 << 11;
const HOTSPOT_SHIFT: u32 = 12;

/// Where the second word, as received, has the reason of a null item.
const REASON_SHIFT: u32 = 1;

/// Words of a typed item: its second word lies below its descriptor.
const ITEM_WORDS: usize = 2;

type Block = [u32; BLOCK_WORDS];

/// Why a typed item is null; the numbers are the interface's. The least that holds is given.
#[derive(Clone, Copy, PartialEq, Eq, Debug)]
#[repr(u32)]
pub enum Reason {
    /// The item's descriptor or its window is null.
    NullDescriptor = 1,
    /// The item's descriptor or its window is malformed.
    MalformedDescriptor = 2,
    /// Item and window are ranges of different spaces.
    TypesDiffer = 3,
    /// A delegation filled no place.
    NothingFilled = 4,
    /// A translation found no range of the receiver inside the window.
    TranslationBroke = 5,
}

impl Reason {
    /// The interface's number for this reason.
    pub const fn number(self) -> u32 {
        self as u32
    }
}

/// Counts of untyped words and typed items in word 0, if they fit the data words.
fn counts(word: u32) -> Option<(usize, usize)> {
    let (untyped, typed) = ((word & 0xffff) as usize, (word >> 16) as usize);
    (untyped + ITEM_WORDS * typed <= DATA_WORDS).then_some((untyped, typed))
}

/// The untyped words of a block, as a part of it; empty for a block of another
/// length or with counts that do not fit.
pub fn untyped(block: &[u32]) -> &[u32] {
    match <&Block>::try_from(block)
        .ok()
        .and_then(|block| counts(block[0]))
    {
        Some((untyped, _)) => &block[HEADER_WORDS..HEADER_WORDS + untyped],
        None => &[],
    }
}

/// CALL: moves the source block's message through a portal into the target
/// block and answers the number of places filled.
pub(crate) fn call(
    tables: &mut Tables,
    caller: Caller,
    portal: u32,
    source: &[u32],
    target: &mut [u32],
) -> Result<u32, Status> {
    let source: &Block = source.try_into().map_err(|_| Status::BadPar)?;
    let target: &mut Block = target.try_into().map_err(|_| Status::BadPar)?;
    let (_, [ec, ..]) = tables
        .named(caller.domain, portal, ObjectKind::Pt, CALL_PT)
        .ok_or(Status::BadCap)?;
    let callee = Object::new(ec)
        .and_then(|object| execution_context(tables, object))
        .ok_or(Status::BadCap)?;
    if callee.object == caller.object {
        return Err(Status::ComTim);
    }
    if callee.cpu != caller.cpu {
        return Err(Status::BadCpu);
    }
    let (untyped, typed) = counts(source[0]).ok_or(Status::BadPar)?;
    let mut transfer = Transfer {
        tables,
        sender: caller.domain,
        receiver: callee.domain,
        translate_window: Descriptor::from_word(target[TRANSLATE_WINDOW]),
        delegate_window: Descriptor::from_word(target[DELEGATE_WINDOW]),
        filled: 0,
    };
    target[0] = source[0];
    let (_, sent) = source.split_at(HEADER_WORDS);
    let (_, received) = target.split_at_mut(HEADER_WORDS);
    let (received_untyped, received_typed) = received.split_at_mut(untyped);
    received_untyped.copy_from_slice(&sent[..untyped]);
    let sent_items = sent.rchunks_exact(ITEM_WORDS);
    let received_items = received_typed.rchunks_exact_mut(ITEM_WORDS);
    for (from, to) in sent_items.zip(received_items).take(typed) {
        let (shown, reason) = match transfer.item(Descriptor::from_word(from[1]), from[0]) {
            Ok(range) => (range.descriptor(), 0),
            Err(reason) => (Descriptor::NULL, reason.number()),
        };
        to[1] = shown.word();
        to[0] = from[0] & ITEM_DELEGATE | reason << REASON_SHIFT;
    }
    Ok(transfer.filled)
}

/// The two sides of a message while its typed items run in turn.
struct Transfer<'a, 'b> {
    tables: &'a mut Tables<'b>,
    sender: Domain,
    receiver: Domain,
    translate_window: Descriptor,
    delegate_window: Descriptor,
    filled: u32,
}

impl Transfer<'_, '_> {
    /// Runs one item; the range that the receiver is shown, or why there is none.
    fn item(&mut self, item: Descriptor, second: u32) -> Result<Range, Reason> {
        if second & ITEM_DELEGATE != 0 {
            let (item, window) = ranges(item, self.delegate_window)?;
            self.delegate(item, window, second)
                .ok_or(Reason::NothingFilled)
        } else {
            let (item, window) = ranges(item, self.translate_window)?;
            translate(self.tables.places, self.sender, item, self.receiver, window)
                .ok_or(Reason::TranslationBroke)
        }
    }

    /// Fills what item and window have in common; the range shown has the item's mask.
    fn delegate(&mut self, item: Range, window: Range, second: u32) -> Option<Range> {
        let hotspot = second >> HOTSPOT_SHIFT;
        let order = item.order.min(window.order);
        let (from, to) = (item.part(order, hotspot), window.part(order, hotspot));
        // Only the root may hand on what the hypervisor holds.
        let domain = if second & ITEM_HYPERVISOR != 0 && self.sender == Domain::ROOT {
            Domain::HYPERVISOR
        } else {
            self.sender
        };
        let filled = delegate_range(self.tables, domain, from, self.receiver, to, item.mask);
        self.filled += filled;
        (filled > 0).then_some(Range {
            mask: item.mask,
            ..to
        })
    }
}

/// The ranges of an item and its window, if they lie in one space. Each reason is looked for
/// in both before the next one is.
fn ranges(item: Descriptor, window: Descriptor) -> Result<(Range, Range), Reason> {
    match (item.range(), window.range()) {
        (Ok(None), _) | (_, Ok(None)) => Err(Reason::NullDescriptor),
        (Err(Malformed), _) | (_, Err(Malformed)) => Err(Reason::MalformedDescriptor),
        (Ok(Some(item)), Ok(Some(window))) if item.space != window.space => {
            Err(Reason::TypesDiffer)
        }
        (Ok(Some(item)), Ok(Some(window))) => Ok((item, window)),
    }
}

/// The receiver's range that the sender's range came from, if every place of it did.
fn translate(
    places: &PlaceTable,
    sender: Domain,
    item: Range,
    receiver: Domain,
    window: Range,
) -> Option<Range> {
    let base = nearest_ancestor(places, item.place(sender, 0), receiver)?.selector();
    let origin = Range { base, ..item };
    let aligned = base.number() % item.length() == 0;
    if !aligned || !window.covers(base, item.order) {
        return None;
    }
    let mut mask = item.mask;
    for (from, to) in item.places(sender).zip(origin.places(receiver)) {
        if nearest_ancestor(places, from, receiver)? != to {
            return None;
        }
        mask &= capability(places, from)?.permissions;
    }
    Some(Range { mask, ..origin })
}

/// The nearest strict ancestor of a place in a domain.
fn nearest_ancestor(places: &PlaceTable, place: Place, domain: Domain) -> Option<Place> {
    std::iter::successors(parent(places, place), |&above| parent(places, above))
        .find(|above| above.domain() == domain)
}
