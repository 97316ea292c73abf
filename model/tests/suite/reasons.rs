//! Why an item is null: the reason in its received second word.

use std::collections::BTreeSet;

use model::generator::{journal, Kind};
use model::journal::{Replay, Step};
use model::{Hypercall, Reason, Status};

use crate::world::*;

#[test]
fn reason_numbers() {
    let numbers = [
        (Reason::NullDescriptor, 1),
        (Reason::MalformedDescriptor, 2),
        (Reason::TypesDiffer, 3),
        (Reason::NothingFilled, 4),
        (Reason::TranslationBroke, 5),
    ];
    for (reason, number) in numbers {
        assert_eq!(reason.number(), number);
    }
}

/// What the root has lent in `lent`, by space and selector.
const LENT: [(u32, u32); 3] = [(MEMORY, 8), (IO, 8), (OBJECT, TO_ROOT)];

/// A selector that is null in every space of the root and of the child.
const NOWHERE: u32 = 20;

/// The partners, where the root has page 8 and port 8 and lends them to the child, as it does
/// its portal to 29.
fn lent() -> World {
    let mut world = World::partners();
    for one in [range(MEMORY, 8, 0, 31), range(IO, 8, 0, 31)] {
        let taken = world.gives(TO_ROOT_2, one, one, hot(0) | FROM_HYPERVISOR);
        assert_eq!(taken, 1);
        assert_eq!(world.gives(TO_CHILD, one, one, hot(0)), 1);
    }
    world
}

/// The reasons of a translation and of a delegation for which item and window are good.
const FAILED: [u32; 2] = [5, 4];

/// The descriptor of an item or a window.
#[derive(Clone, Copy, Debug)]
struct Word {
    word: u32,
    /// The reason that it gives by itself: 1 null, 2 malformed, none if it is good.
    fault: Option<u32>,
    space: u32,
    /// Whether a good one serves a translation, and a delegation.
    serves: [bool; 2],
}

const fn good(space: u32, base: u32, order: u32, mask: u32, serves: [bool; 2]) -> Word {
    Word {
        word: range(space, base, order, mask),
        fault: None,
        space,
        serves,
    }
}

/// Null and malformed descriptors.
fn faulty() -> impl Iterator<Item = Word> {
    let null = [0, 4, 3968, 33_152, 0xabcd_ef00, 0xffff_fffc];
    let malformed = [
        range(MEMORY, 0, 7, 31),
        range(MEMORY, 0, 31, 0),
        range(MEMORY, 6, 2, 31),
        range(MEMORY, 64, 0, 7),
        range(MEMORY, 64, 6, 7),
        range(MEMORY, 0xfffff, 0, 7),
        range(IO, 8, 7, 31),
        range(IO, 7, 1, 31),
        range(IO, 64, 3, 1),
        range(IO, 0xfffff, 31, 31),
        range(OBJECT, 0, 9, 31),
        range(OBJECT, 64, 7, 31),
        range(OBJECT, 128, 8, 31),
        range(OBJECT, 65, 1, 31),
        range(OBJECT, 0xfffff, 31, 31),
    ];
    let null = null.into_iter().map(|word| (word, 1));
    let malformed = malformed.into_iter().map(|word| (word, 2));
    null.chain(malformed).map(|(word, fault)| Word {
        word,
        fault: Some(fault),
        space: 0,
        serves: [false; 2],
    })
}

/// Items of the child: faulty ones, what it was lent, the same with mask 0, and null places.
fn items() -> Vec<Word> {
    let ranges = LENT.into_iter().flat_map(|(space, selector)| {
        [
            good(space, selector, 0, 31, [true, true]),
            good(space, selector, 0, 0, [true, false]),
            good(space, NOWHERE, 0, 31, [false, false]),
        ]
    });
    let wrapped = good(OBJECT, 256 + TO_ROOT, 0, 31, [true, true]);
    faulty().chain(ranges).chain([wrapped]).collect()
}

/// Windows of the root: faulty ones, what it lent, null places, and whole spaces.
fn windows_of_the_root() -> Vec<Word> {
    let ranges = LENT.into_iter().flat_map(|(space, selector)| {
        [
            good(space, selector, 0, 31, [true, false]),
            good(space, NOWHERE, 0, 0, [false, true]),
            good(space, 0, ORDERS[space as usize], 1, [true, true]),
        ]
    });
    let wrapped = good(OBJECT, 512 + NOWHERE, 0, 0, [false, true]);
    faulty().chain(ranges).chain([wrapped]).collect()
}

/// Every kind with every item and every window.
fn cases() -> Vec<(u32, Word, Word)> {
    let (items, windows) = (items(), windows_of_the_root());
    let mut cases = Vec::new();
    for kind in [TRANSLATE, DELEGATE] {
        for &item in &items {
            cases.extend(windows.iter().map(|&window| (kind, item, window)));
        }
    }
    cases
}

/// The reason for an item, 0 if it is not null.
fn expected(kind: u32, item: Word, window: Word) -> u32 {
    let faults = [item, window].into_iter().filter_map(|word| word.fault);
    match faults.min() {
        Some(fault) => fault,
        None if item.space != window.space => 3,
        None if item.serves[kind as usize] && window.serves[kind as usize] => 0,
        None => FAILED[kind as usize],
    }
}

#[test]
fn the_least_reason_of_item_and_window_is_given() {
    let world = lent();
    let mut met = BTreeSet::new();
    for (kind, item, window) in cases() {
        let reason = expected(kind, item, window);
        met.insert((kind, reason));
        // Neither the other window counts, nor a bit that is ignored, nor the child's H.
        for (other, bits) in [
            (0, 0),
            (MALFORMED, 0xffe),
            (range(MEMORY, 0, 6, 31), 0),
            (range(IO, 0, 6, 31), 0xffe),
        ] {
            let mut after = world.clone();
            let target = match kind {
                TRANSLATE => windows(window.word, other),
                _ => windows(other, window.word),
            };
            let source = message(0, &[(item.word, kind | bits)]);
            let (filled, block) = after.sends(CHILD_EC, TO_ROOT, source, target);
            let case = format!("{kind}, {item:x?}, {window:x?}");
            let mut whole = target;
            whole[0] = source[0];
            whole[62] = kind + 2 * reason;
            whole[63] = block[63];
            assert_eq!(block, whole, "{case}");
            assert_eq!(block[63] == 0, reason != 0, "{case}");
            let fills = kind == DELEGATE && reason == 0;
            assert_eq!(filled, u32::from(fills), "{case}");
            assert_eq!(after == world, !fills, "{case}");
        }
    }
    let translations = [0, 1, 2, 3, 5].map(|reason| (TRANSLATE, reason));
    let delegations = [0, 1, 2, 3, 4].map(|reason| (DELEGATE, reason));
    assert_eq!(met, translations.into_iter().chain(delegations).collect());
}

#[test]
fn of_the_sent_second_word_the_kind_alone_arrives() {
    let world = lent();
    let page = range(MEMORY, 8, 0, 31);
    // A window that lets the page through, and one that does not.
    for (kind, through, shut) in [(TRANSLATE, 8, NOWHERE), (DELEGATE, NOWHERE, 8)] {
        let [through, shut] = [through, shut].map(|base| range(MEMORY, base, 0, 0));
        for (item, window, reason) in [
            (page, through, 0),
            (0, through, 1),
            (MALFORMED, through, 2),
            (range(IO, 8, 0, 31), through, 3),
            (page, shut, FAILED[kind as usize]),
        ] {
            let received = |bits: u32| {
                let (item, target) = ((item, kind | bits), windows(window, window));
                world.clone().shows(CHILD_EC, TO_ROOT, item, target).1
            };
            for bits in 0..256 {
                assert_eq!(received(bits << 1), kind + 2 * reason);
            }
            for bit in 9..32 {
                assert_eq!(received(1 << bit), kind + 2 * reason);
                assert_eq!(received(1 << bit | 0x1fe), kind + 2 * reason);
            }
        }
    }
}

#[test]
fn a_reason_goes_by_what_the_items_before_left() {
    let mut world = World::partners();
    let page = |selector| range(MEMORY, selector, 0, 7);
    let pair = (range(MEMORY, 12, 1, 7), TRANSLATE);
    // Each item with what the receiver gets.
    let items = [
        ((page(10), hot(11)), (0, 9)),
        ((page(11), TRANSLATE), (0, 10)),
        ((page(4), hot(10) | FROM_HYPERVISOR), (page(10), 1)),
        ((page(5), hot(10) | FROM_HYPERVISOR), (0, 9)),
        // The first two again, now that page 10 is live, and once more.
        ((page(10), hot(11)), (page(11), 1)),
        ((page(11), TRANSLATE), (page(10), 0)),
        ((page(10), hot(11)), (0, 9)),
        // Null items in between change nothing.
        ((0, hot(12)), (0, 3)),
        ((range(MEMORY, 1, 1, 7), TRANSLATE), (0, 4)),
        ((range(IO, 10, 0, 1), hot(12)), (0, 7)),
        // A range breaks at its second place until that is live.
        ((page(10), hot(12)), (page(12), 1)),
        (pair, (0, 10)),
        ((page(11), hot(13)), (page(13), 1)),
        (pair, (range(MEMORY, 10, 1, 7), 0)),
    ];
    let wide = range(MEMORY, 0, 6, 0);
    let sent = items.map(|(item, _)| item);
    let (filled, block) = world.sends(ROOT_EC, TO_ROOT_2, message(0, &sent), windows(wide, wide));
    assert_eq!(filled, 4);
    for (index, (item, received)) in items.into_iter().enumerate() {
        let words = (block[63 - 2 * index], block[62 - 2 * index]);
        assert_eq!(words, received, "item {index}, {item:?}");
    }
}

#[test]
fn each_item_gets_what_it_gets_alone_after_those_before_it() {
    let (mut null, mut others) = (0, 0);
    for (kind, seed) in [Kind::Mixed, Kind::Within, Kind::Null]
        .into_iter()
        .flat_map(|kind| (0..4).map(move |seed| (kind, seed)))
    {
        let bytes = journal(kind, seed, 200);
        let mut replay = Replay::new(&bytes);
        let mut here = replay.machine.clone();
        while let Step::Ran(_, reply) = replay.step() {
            let record = &replay.record;
            if record.hypercall != Hypercall::Call || reply.status != Status::Success {
                here.clone_from(&replay.machine);
                continue;
            }
            for item in 0..(record.source[0] >> 16) as usize {
                let words = 62 - 2 * item..64 - 2 * item;
                let mut alone = record.clone();
                alone.source[0] = 1 << 16;
                alone.source.copy_within(words.clone(), 62);
                let before = here.clone();
                assert_eq!(here.run(&mut alone).status, Status::Success);
                assert_eq!(alone.target[62..], record.target[words]);
                if alone.target[62] > 1 {
                    assert!(here.places == before.places);
                    null += 1;
                } else {
                    others += 1;
                }
            }
            assert!(here.places == replay.machine.places);
            assert!(here.objects == replay.machine.objects);
        }
    }
    assert!(null > 1000 && others > 500, "{null} null, {others} others");
}
