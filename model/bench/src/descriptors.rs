//! Messages to measure how descriptors are read: their items are of another
//! type than the window, so that nothing is filled.

use model::descriptor::{Descriptor, FULL_MASK};
use model::layout::DATA_WORDS;
use model::random::Random;
use model::tables::Space;
use model::Hypercall;

use crate::call::{Call, Case, Cell, Side};
use crate::journals::DELEGATE;
use crate::tables::{with_portal, PORTAL};

/// As many items as a message block holds.
pub const ITEMS: usize = DATA_WORDS / 2;

/// Draws a descriptor of one sort.
type Draw = fn(&mut Random) -> Descriptor;

const SORTS: [(&str, Draw); 3] = [
    ("aligned", aligned),
    ("base 0", at_zero),
    ("not aligned", unaligned),
];

/// A range that does not begin at 0, of any order that leaves room for one.
fn aligned(random: &mut Random) -> Descriptor {
    let order = random.below(Space::Io.order_limit());
    let base = 1 + random.below((Space::Io.selectors() >> order) - 1);
    ports(base << order, order)
}

/// A range of any order that begins at 0.
fn at_zero(random: &mut Random) -> Descriptor {
    ports(0, random.below(Space::Io.order_limit() + 1))
}

/// A descriptor that ends inside its space and is malformed for its base alone.
fn unaligned(random: &mut Random) -> Descriptor {
    let order = 1 + random.below(Space::Io.order_limit() - 1);
    let range = random.below((Space::Io.selectors() >> order) - 1);
    let off = 1 + random.below((1 << order) - 1);
    ports((range << order) + off, order)
}

fn ports(base: u32, order: u32) -> Descriptor {
    Descriptor::new(Space::Io, base, order, FULL_MASK)
}

/// A CALL without items, then one with as many as fit for each sort of descriptor.
pub fn messages() -> Vec<Case> {
    let full = SORTS.map(|(name, draw)| {
        let mut random = Random::new(1);
        let items: [u32; ITEMS] = std::array::from_fn(|_| draw(&mut random).word());
        message(name, &items)
    });
    [message("none", &[])].into_iter().chain(full).collect()
}

/// A CALL with these items and a delegate window of all pages. It was made once before, so
/// that it changes no word when it is timed.
fn message(name: &'static str, items: &[u32]) -> Case {
    let mut lent = with_portal();
    let pages = Descriptor::new(Space::Memory, 0, Space::Memory.order_limit(), FULL_MASK);
    lent.target[2] = pages.word();
    lent.source[0] = (items.len() as u32) << 16;
    for (words, &item) in lent.source.rchunks_exact_mut(2).zip(items) {
        words.copy_from_slice(&[DELEGATE, item]);
    }
    let call = Call::Root(Hypercall::Call, [PORTAL, 0, 0, 0, 0, 0]);
    call.run(Side::Model, &mut lent);
    Case::new(vec![Cell::Text(name)], lent, call)
}
