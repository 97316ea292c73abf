//! The interface's worked examples, and the slips it warns of.

use model::descriptor::{Descriptor, Malformed};
use model::journal::{self, Record};
use model::tables::{Domain, Place, Selector, Space};
use model::{Hypercall, Status};

use crate::world::*;

/// Checks that the child's pages from `to` came from domain 0's pages from `from`.
fn pages_went(world: &World, from: u32, to: u32, count: u32) {
    for selector in 0..64 {
        let row = world.row(place(2, MEMORY, selector));
        if (to..to + count).contains(&selector) {
            let source = from + selector - to;
            assert_eq!(row, [source, 7, place(0, MEMORY, source) + 1, 1]);
        } else {
            assert_eq!(row, NULL, "page {selector}");
        }
    }
}

#[test]
fn a_small_range_goes_into_a_large_window() {
    let mut world = World::partners();
    let item = (range(MEMORY, 8, 2, 31), hot(23) | FROM_HYPERVISOR);
    let target = windows(0, range(MEMORY, 32, 4, 0));
    let (filled, block) = world.sends(ROOT_EC, TO_CHILD, message(0, &[item]), target);
    assert_eq!(filled, 4);
    pages_went(&world, 8, 36, 4);
    assert_eq!(block[63], range(MEMORY, 36, 2, 31));
}

#[test]
fn a_large_range_goes_into_a_small_window() {
    let mut world = World::partners();
    let item = (range(MEMORY, 16, 4, 31), hot(13) | FROM_HYPERVISOR);
    let target = windows(0, range(MEMORY, 4, 1, 0));
    let (filled, block) = world.sends(ROOT_EC, TO_CHILD, message(0, &[item]), target);
    assert_eq!(filled, 2);
    pages_went(&world, 28, 4, 2);
    assert_eq!(block[63], range(MEMORY, 4, 1, 31));
}

#[test]
fn numbers_of_places() {
    let domains = [
        [0..=63, 64..=127, 128..=383],
        [384..=447, 448..=511, 512..=767],
        [768..=831, 832..=895, 896..=1151],
        [1152..=1215, 1216..=1279, 1280..=1535],
        [1536..=1599, 1600..=1663, 1664..=1919],
        [1920..=1983, 1984..=2047, 2048..=2303],
        [2304..=2367, 2368..=2431, 2432..=2687],
        [2688..=2751, 2752..=2815, 2816..=3071],
    ];
    let mut next = 0;
    for (domain, spaces) in (0..).zip(domains) {
        for (space, places) in Space::ALL.into_iter().zip(spaces) {
            for (selector, number) in (0..).zip(places) {
                let place = Place::from_number(number).expect("a place of the tables");
                assert_eq!((place.domain().number(), place.space()), (domain, space));
                assert_eq!(place.selector().number(), selector);
                let domain = Domain::new(domain).expect("a domain of the tables");
                let selector = Selector::wrapped(selector, space);
                assert_eq!(Place::new(domain, space, selector), place);
                assert_eq!(number, next);
                next += 1;
            }
            assert_eq!(space.selectors(), SELECTORS[space as usize]);
            assert_eq!(space.order_limit(), ORDERS[space as usize]);
        }
    }
    assert_eq!((next, Place::from_number(next)), (PLACES, None));
    assert_eq!((place(1, OBJECT, 32), place(7, OBJECT, 255)), (544, 3071));
}

#[test]
fn words_read_as_descriptors() {
    let null = Ok(None);
    let malformed = Err(Malformed);
    let good =
        |space: Space, base: u32, order: u32, mask: u32| Ok(Some((space, base, order, mask)));
    let examples = [
        (0, null),
        (4_294_967_292, null),
        (163_843, good(Space::Object, 40, 0, 0)),
        (163_855, good(Space::Object, 40, 0, 3)),
        (131_199, good(Space::Object, 32, 0, 31)),
        (33_181, good(Space::Memory, 8, 3, 7)),
        (33_153, good(Space::Memory, 8, 3, 0)),
        (16_769, malformed),
        (769, good(Space::Memory, 0, 6, 0)),
        (897, malformed),
        (899, good(Space::Object, 0, 7, 0)),
        (1027, good(Space::Object, 0, 8, 0)),
        (1155, malformed),
        (262_147, good(Space::Object, 64, 0, 0)),
        (1_048_579, good(Space::Object, 0, 0, 0)),
        (262_145, malformed),
        (258_050, good(Space::Io, 63, 0, 0)),
        (131_843, malformed),
        (263_171, malformed),
        (3_146_755, good(Space::Object, 0, 8, 0)),
        (4_294_963_203, good(Space::Object, 255, 0, 0)),
    ];
    for (word, expected) in examples {
        let range = Descriptor::from_word(word).range();
        let read = range.map(|range| {
            range.map(|range| (range.space, range.base.number(), range.order, range.mask))
        });
        assert_eq!(read, expected, "word {word}");
    }
}

fn is_malformed(space: Space, base: u32, order: u32) -> bool {
    Descriptor::new(space, base, order, 31).range() == Err(Malformed)
}

#[test]
fn alignment_of_bases() {
    for space in Space::ALL {
        assert!(!is_malformed(space, 8, 3));
        assert!(is_malformed(space, 4, 3));
        assert!(!is_malformed(space, 0, 3));
    }
}

#[test]
fn bounds_of_orders() {
    for space in Space::ALL {
        let whole = ORDERS[space as usize];
        for order in 0..32 {
            assert_eq!(is_malformed(space, 0, order), order > whole);
            // The first base past the space: it wraps among objects alone.
            let past = space != Space::Object || order > whole;
            assert_eq!(is_malformed(space, 1 << whole, order), past);
        }
    }
}

#[test]
fn object_bases_wrap_and_others_do_not() {
    let wrapped = Descriptor::new(Space::Object, 256, 0, 31).range();
    assert_eq!(wrapped, Descriptor::new(Space::Object, 0, 0, 31).range());
    for base in [0, 63, 64, 127, 128, 255, 256, 319, 320, 0xfff00, 0xfffff] {
        let range = Descriptor::new(Space::Object, base, 0, 31).range();
        assert!(matches!(range, Ok(Some(range)) if range.base.number() == base % 256));
    }
    assert!(is_malformed(Space::Memory, 64, 0));
    assert!(is_malformed(Space::Io, 64, 0));
    // An aligned base cannot make a range cross the end; the first one past it can.
    assert!(!is_malformed(Space::Memory, 32, 5));
    assert!(is_malformed(Space::Memory, 64, 5));
    assert!(!is_malformed(Space::Memory, 63, 0));
}

#[test]
fn a_mask_keeps_its_bits_in_delegation() {
    let mut world = World::partners();
    let window = range(MEMORY, 5, 0, 31);
    assert_eq!(
        world.gives(
            TO_CHILD,
            range(MEMORY, 5, 0, 0),
            window,
            hot(0) | FROM_HYPERVISOR
        ),
        0
    );
    assert_eq!(world.row(place(2, MEMORY, 5)), NULL);
    assert_eq!(
        world.gives(
            TO_CHILD,
            range(MEMORY, 5, 0, 3),
            window,
            hot(0) | FROM_HYPERVISOR
        ),
        1
    );
    assert_eq!(
        world.row(place(2, MEMORY, 5)),
        [5, 3, place(0, MEMORY, 5) + 1, 1]
    );
}

/// A line of permissions 7, 3, 2 on page 9: root selectors 1, 2 and the child's 3.
fn line() -> World {
    let mut world = World::partners();
    let one = range(MEMORY, 1, 0, 31);
    assert_eq!(
        world.gives(
            TO_ROOT_2,
            range(MEMORY, 9, 0, 31),
            one,
            hot(0) | FROM_HYPERVISOR
        ),
        1
    );
    assert_eq!(
        world.gives(
            TO_ROOT_2,
            range(MEMORY, 1, 0, 3),
            range(MEMORY, 2, 0, 0),
            hot(0)
        ),
        1
    );
    assert_eq!(
        world.gives(
            TO_CHILD,
            range(MEMORY, 2, 0, 2),
            range(MEMORY, 3, 0, 0),
            hot(0)
        ),
        1
    );
    assert_eq!(permissions(&world), [7, 3, 2]);
    world
}

fn permissions(world: &World) -> [u32; 3] {
    [
        place(1, MEMORY, 1),
        place(1, MEMORY, 2),
        place(2, MEMORY, 3),
    ]
    .map(|place| world.row(place)[1])
}

#[test]
fn a_line_revoked_below() {
    let mut world = line();
    world.does(REVOKE, ROOT_EC, &[range(MEMORY, 1, 0, 2), 0]);
    assert_eq!(permissions(&world), [7, 1, 0]);
    assert_eq!(world.row(place(2, MEMORY, 3)), NULL);
    assert_eq!(
        world.row(place(1, MEMORY, 2)),
        [9, 1, place(1, MEMORY, 1) + 1, 2]
    );
}

#[test]
fn a_line_revoked_with_its_start() {
    let mut world = line();
    world.does(REVOKE, ROOT_EC, &[range(MEMORY, 1, 0, 2), 1]);
    assert_eq!(permissions(&world), [5, 1, 0]);
    assert_eq!(world.row(place(2, MEMORY, 3)), NULL);
}

#[test]
fn masks_of_revocations() {
    // What each leaves of a place of the child, where it takes something.
    let page = [8, 3, place(1, MEMORY, 8) + 1, 2];
    let examples = [
        (32_769, 5, None),
        (32_801, 5, None),
        (32_785, 0, Some((place(2, MEMORY, 8), page))),
        (32_778, 5, None),
        (32_782, 0, Some((place(2, IO, 8), NULL))),
        (163_843, 5, None),
        (163_907, 0, None),
        (0, 0, None),
        (32, 0, None),
    ];
    for (descriptor, status, taken) in examples {
        let revoke = |before: &World| {
            let mut after = before.clone();
            let reply = after.call(REVOKE, ROOT_EC, &[descriptor, 0]);
            assert_eq!(reply, (status, 0), "descriptor {descriptor}");
            after
        };
        // At boot the root has neither page 8 nor port 8 nor an object at selector 40.
        assert!(revoke(&World::boot()) == World::boot());
        let mut expected = World::lenders();
        let after = revoke(&expected);
        if let Some((place, row)) = taken {
            expected.set_row(place, row);
        }
        assert!(after == expected, "descriptor {descriptor}");
    }
}

#[test]
fn lookups_after_boot() {
    let mut world = World::boot();
    // Selectors 32 and 35, the pages 63, 62 and 61, then the whole object space.
    for (descriptor, answer) in [
        (131_075, 131_199),
        (143_363, 0),
        (258_049, 258_053),
        (253_953, 253_965),
        (249_857, 0),
        (1027, 0),
    ] {
        assert_eq!(world.does(LOOKUP, ROOT_EC, &[descriptor]), answer);
    }
    world.refuses(LOOKUP, ROOT_EC, &[1155], Status::BadPar);
}

/// A block of these words, and 0 in all others.
fn block(words: &[(usize, u32)]) -> [u32; 64] {
    let mut block = [0; 64];
    for &(word, value) in words {
        block[word] = value;
    }
    block
}

#[test]
fn a_message_a_translation_and_a_revocation() {
    let mut world = World::boot();
    world.does(CREATE_SM, ROOT_EC, &[40, 32, 0]);
    world.does(CREATE_PD, ROOT_EC, &[41, 32, 163_855]);
    assert_eq!(world.row(936), [31, 3, 553, 1]);
    world.does(CREATE_EC, ROOT_EC, &[42, 41, 0, 0]);
    world.does(CREATE_EC, ROOT_EC, &[43, 32, 0, 0]);
    world.does(CREATE_PT, ROOT_EC, &[44, 32, 42, 0, 0, 0]);
    world.does(CREATE_PT, ROOT_EC, &[45, 32, 43, 0, 0, 0]);
    assert_eq!(world.record(33), [2, 2, 0, 0, 0]);
    assert_eq!(world.record(35), [4, 33, 0, 0, 0]);
    assert_eq!(world.record(36), [4, 34, 0, 0, 0]);
    // Two words and a portal to domain 2.
    let words = [(0, 65_538), (4, 1000), (5, 2000)];
    let source = [&words[..], &[(62, 20_481), (63, 184_331)]].concat();
    let after = [&words[..], &[(2, 771), (62, 1), (63, 20_491)]].concat();
    let received = world.sends(ROOT_EC, 44, block(&source), block(&[(2, 771)]));
    assert_eq!(received, (1, block(&after)));
    assert_eq!(world.row(901), [36, 2, 558, 1]);
    assert_eq!(model::untyped(&received.1), [1000, 2000]);
    // Through it domain 2 shows its semaphore, in a window with the root's and in one without.
    let before = world.clone();
    let source = block(&[(0, 65_536), (63, 163_967)]);
    for (window, second, shown) in [(131_715, 0, 163_855), (643, 10, 0)] {
        let after = [(0, 65_536), (1, window), (62, second), (63, shown)];
        let received = world.sends(33, 5, source, block(&[(1, window)]));
        assert_eq!(received, (0, block(&after)));
        assert!(world == before);
    }
    assert_eq!(world.heirs(552), [936]);
    world.does(REVOKE, ROOT_EC, &[163_967, 0]);
    assert_eq!(world.row(936), NULL);
    assert_eq!(world.row(552), [31, 3, 0, 0]);
}

/// The root with a second execution context, and a portal to it at selector 41.
fn two_contexts() -> World {
    let mut world = World::boot();
    world.does(CREATE_EC, ROOT_EC, &[40, 32, 0, 0]);
    world.does(CREATE_PT, ROOT_EC, &[41, 32, 40, 0, 0, 0]);
    world
}

#[test]
fn several_items_in_one_message() {
    let mut world = two_contexts();
    let source = [
        (0, 196_608),
        (63, 29),
        (62, 2049),
        (61, 4125),
        (60, 2049),
        (59, 32_893),
        (58, 0),
    ];
    let target = [(1, 769), (2, 32_769)];
    let items = [(63, 32_797), (62, 1), (60, 9), (58, 10)];
    let after = [&[source[0]], &target[..], &items].concat();
    let received = world.sends(ROOT_EC, 41, block(&source), block(&target));
    assert_eq!(received, (1, block(&after)));
    let mut expected = two_contexts();
    expected.set_row(392, [0, 7, 1, 1]);
    assert!(world == expected);
}

#[test]
fn why_an_item_is_null() {
    let mut world = two_contexts();
    let before = world.clone();
    // Descriptor and second word sent, window, second word received.
    let examples = [
        (0, 2049, 33_153, 3),
        (413, 2049, 0, 3),
        (3969, 2049, 0, 3),
        (3969, 2049, 33_153, 5),
        (413, 2049, 3969, 5),
        (3969, 2049, 771, 5),
        (413, 2049, 771, 7),
        (385, 2049, 33_153, 9),
        (0, 0, 769, 2),
        (3969, 0, 769, 4),
        (413, 0, 771, 6),
        (413, 0, 769, 10),
        (413, 14, 769, 10),
    ];
    for (descriptor, second, window, received) in examples {
        let target = [(1 + second as usize % 2, window)];
        let source = block(&[(0, 65_536), (62, second), (63, descriptor)]);
        let after = [target[0], (0, 65_536), (62, received)];
        assert_eq!(
            world.sends(ROOT_EC, 41, source, block(&target)),
            (0, block(&after)),
            "descriptor {descriptor}, window {window}"
        );
        assert!(world == before);
    }
}

/// A census that needs no more than one word: status, answer and list.
fn short_census(world: &World, place: u32) -> (u32, u32, [u32; 1]) {
    let mut list = [9999];
    let reply = world.census(place, &mut list);
    (reply.status.number(), reply.answer, list)
}

#[test]
fn the_pages_of_the_root() {
    let mut world = World::boot();
    let mut expected = World::listed();
    for (place, answer, heir) in [(63, 1, 447), (62, 1, 446), (61, 0, 9999)] {
        assert_eq!(short_census(&world, place), (0, answer, [heir]));
        assert!(world == expected);
    }
    for (descriptor, answer) in [(258_049, 258_053), (253_953, 253_965), (249_857, 0)] {
        let reply = world.call(LOOKUP, ROOT_EC, &[descriptor]);
        assert_eq!(reply, (0, answer));
        assert!(world == expected);
    }
    assert_eq!(world.call(REVOKE, ROOT_EC, &[258_173, 0]), (0, 0));
    assert!(world == expected);
    assert_eq!(world.call(REVOKE, ROOT_EC, &[258_173, 1]), (0, 0));
    expected.set_row(447, NULL);
    assert_eq!(world.row(63), [63, 7, 0, 0]);
    assert!(world == expected);
    assert_eq!(short_census(&world, 63), (0, 0, [9999]));
    assert!(world == expected);
}

#[test]
fn object_selectors_above_63() {
    let mut world = two_contexts();
    let mut expected = world.clone();
    let source = block(&[(0, 65_536), (62, 2049), (63, 519)]);
    let after = [(0, 65_536), (2, 786_947), (62, 1), (63, 786_951)];
    let received = world.sends(ROOT_EC, 41, source, block(&[(2, 786_947)]));
    assert_eq!(received, (16, block(&after)));
    for object in 0..16 {
        expected.set_row(704 + object, [object, 1, 129 + object, 1]);
    }
    assert!(world == expected);
    let lookups = [
        (819_203, (0, 786_951)),
        (1_867_779, (0, 786_951)),
        (1027, (0, 0)),
        (1155, (5, 0)),
    ];
    for (descriptor, reply) in lookups {
        assert_eq!(world.call(LOOKUP, ROOT_EC, &[descriptor]), reply);
    }
    assert_eq!(short_census(&world, 129), (0, 1, [705]));
    assert!(world == expected);
    assert_eq!(world.call(REVOKE, ROOT_EC, &[1151, 1]), (0, 0));
    for live in [544, 545, 546, 552, 553].into_iter().chain(704..720) {
        assert_ne!(expected.row(live), NULL);
        expected.set_row(live, NULL);
    }
    assert!(world == expected);
    assert_eq!(world.call(LOOKUP, ROOT_EC, &[819_203]), (0, 0));
}

#[test]
fn a_chain_of_63_delegations() {
    let mut world = two_contexts();
    assert_eq!(world.call(CREATE_SM, ROOT_EC, &[64, 32, 0]), (0, 0));
    assert_eq!(world.row(576), [33, 3, 0, 0]);
    let mut expected = world.clone();
    for (first, items, filled) in [(64, 30, 30), (94, 30, 30), (124, 4, 3)] {
        let item = |selector| (15 + 4096 * selector, 1 + 4096 * (selector + 1));
        let items: Vec<(u32, u32)> = (first..first + items).map(item).collect();
        let target = block(&[(2, 1027)]);
        let (answer, block) = world.sends(ROOT_EC, 41, message(0, &items), target);
        assert_eq!(answer, filled);
        for (index, selector) in (0..items.len()).zip(first..) {
            let received = (block[63 - 2 * index], block[62 - 2 * index]);
            if selector == 127 {
                assert_eq!(received, (0, 9));
                continue;
            }
            assert_eq!(received, (15 + 4096 * (selector + 1), 1));
            let step = selector - 63;
            expected.set_row(576 + step, [33, 3, 576 + step, step]);
        }
        assert!(world == expected);
    }
    assert_eq!(world.row(639), [33, 3, 639, 63]);
    assert_eq!(world.row(640), NULL);
    let source = block(&[(0, 65_536), (63, 520_207)]);
    let after = [(0, 65_536), (1, 1027), (63, 516_111)];
    let received = world.sends(ROOT_EC, 41, source, block(&[(1, 1027)]));
    assert_eq!(received, (0, block(&after)));
    assert!(world == expected);
    assert_eq!(world.heirs(576), (577..640).collect::<Vec<u32>>());
    assert_eq!(world.call(REVOKE, ROOT_EC, &[262_271, 0]), (0, 0));
    for place in 577..640 {
        expected.set_row(place, NULL);
    }
    assert!(world == expected);
}

#[test]
fn pages_to_the_root() {
    let mut world = two_contexts();
    assert_eq!(world.record(31), [2, 1, 0, 0, 0]);
    assert_eq!(world.record(32), [4, 31, 0, 0, 0]);
    let mut expected = world.clone();
    let source = block(&[(0, 65_536), (63, 413), (62, 2049)]);
    let after = [(0, 65_536), (2, 33_153), (63, 33_181), (62, 1)];
    let received = world.sends(ROOT_EC, 41, source, block(&[(2, 33_153)]));
    assert_eq!(received, (8, block(&after)));
    assert_eq!(world.call(LOOKUP, ROOT_EC, &[40_961]), (0, 33_181));
    for page in 0..8 {
        expected.set_row(392 + page, [page, 7, page + 1, 1]);
    }
    assert!(world == expected);
    assert_eq!(short_census(&world, 0), (0, 1, [392]));
}

#[test]
fn three_pages_in_a_line_revoked() {
    let mut world = World::boot();
    world.does(CREATE_PD, ROOT_EC, &[40, 32, 0]);
    world.does(CREATE_PD, ROOT_EC, &[41, 32, 0]);
    world.set_row(392, [8, 7, 9, 1]);
    world.set_row(776, [8, 3, 393, 2]);
    world.set_row(1160, [8, 2, 777, 3]);
    for (own, left) in [(0, 7), (1, 5)] {
        let (mut after, mut expected) = (world.clone(), world.clone());
        assert_eq!(after.call(REVOKE, ROOT_EC, &[32_777, own]), (0, 0));
        expected.set_row(392, [8, left, 9, 1]);
        expected.set_row(776, [8, 1, 393, 2]);
        expected.set_row(1160, NULL);
        assert!(after == expected);
    }
}

#[test]
fn a_range_revoked_with_a_place_below_another() {
    let mut world = World::boot();
    world.does(CREATE_SM, ROOT_EC, &[40, 32, 0]);
    world.set_row(553, [31, 3, 553, 1]);
    for own in [0, 1] {
        let (mut after, mut expected) = (world.clone(), world.clone());
        assert_eq!(after.call(REVOKE, ROOT_EC, &[164_095, own]), (0, 0));
        expected.set_row(553, NULL);
        if own == 1 {
            expected.set_row(552, NULL);
        }
        assert!(after == expected);
    }
}

#[test]
fn a_place_filled_twice() {
    let mut world = World::boot();
    world.does(CREATE_SM, ROOT_EC, &[40, 32, 0]);
    world.does(CREATE_SM, ROOT_EC, &[50, 32, 0]);
    assert_eq!(world.row(552), [31, 3, 0, 0]);
    assert_eq!(world.row(562), [32, 3, 0, 0]);
    world.does(CREATE_PD, ROOT_EC, &[41, 32, 0]);
    world.does(CREATE_EC, ROOT_EC, &[42, 41, 0, 0]);
    world.does(CREATE_PT, ROOT_EC, &[43, 32, 42, 0, 0, 0]);
    let give = |world: &mut World, item: u32| {
        let shown = world.shows(ROOT_EC, 43, (item, 40_961), windows(0, 771));
        assert_eq!(shown, (40_975, 1));
    };
    give(&mut world, 163_855);
    assert_eq!(world.row(906), [31, 3, 553, 1]);
    assert_eq!(short_census(&world, 552), (0, 1, [906]));
    world.does(REVOKE, ROOT_EC, &[163_967, 0]);
    assert_eq!(world.row(906), NULL);
    assert_eq!(short_census(&world, 552), (0, 0, [9999]));
    give(&mut world, 204_815);
    assert_eq!(world.row(906), [32, 3, 563, 1]);
    assert_eq!(short_census(&world, 552), (0, 0, [9999]));
    assert_eq!(short_census(&world, 562), (0, 1, [906]));
}

#[test]
fn the_example_journal() {
    let mut bytes = Vec::new();
    let mut record = Record::empty(Hypercall::CreateSm);
    record.caller = 29;
    record.arguments[..3].copy_from_slice(&[40, 32, 0]);
    record.write(&mut bytes);
    assert_eq!(
        bytes,
        [6, 29, 0, 0, 0, 40, 0, 0, 0, 32, 0, 0, 0, 0, 0, 0, 0]
    );
    let mut record = Record::empty(Hypercall::Lookup);
    record.caller = 29;
    record.arguments[0] = 163_843;
    record.write(&mut bytes);
    assert_eq!(journal::lines(&bytes), "0 6 0 0\n1 8 0 163855\nend 2\n");
    // Cut, bad and empty journals.
    assert_eq!(journal::lines(&[]), "end 0\n");
    assert_eq!(
        journal::lines(&bytes[..bytes.len() - 1]),
        "0 6 0 0\ncut\nend 1\n"
    );
    assert_eq!(journal::lines(&bytes[..18]), "0 6 0 0\ncut\nend 1\n");
    assert_eq!(journal::lines(&bytes[..17]), "0 6 0 0\nend 1\n");
    assert_eq!(journal::lines(&[9]), "bad 9\nend 0\n");
    assert_eq!(journal::lines(&[255, 6, 29, 0]), "bad 255\nend 0\n");
    let mut bad = bytes.clone();
    bad.splice(17..17, [1]);
    assert_eq!(journal::lines(&bad), "0 6 0 0\nbad 1\nend 1\n");
}

#[test]
fn a_journal_knows_its_kinds_and_lengths() {
    let known = [
        (0, 520),
        (2, 16),
        (3, 20),
        (4, 20),
        (5, 28),
        (6, 16),
        (7, 12),
        (8, 8),
        (11, 12),
    ];
    for kind in 0..=255u8 {
        let body = known
            .iter()
            .find(|(known, _)| *known == kind)
            .map(|(_, body)| *body);
        let Some(body) = body else {
            assert_eq!(journal::lines(&[kind]), format!("bad {kind}\nend 0\n"));
            continue;
        };
        assert_eq!(journal::lines(&[kind]), "cut\nend 0\n");
        let mut bytes = vec![0; 1 + body];
        bytes[0] = kind;
        assert_eq!(journal::lines(&bytes[..body]), "cut\nend 0\n");
        assert_eq!(journal::lines(&bytes), format!("0 {kind} 18 0\nend 1\n"));
    }
}

#[test]
fn slip_the_mask_keeps_in_delegation_and_removes_in_revocation() {
    let mut world = World::partners();
    let window = range(MEMORY, 1, 0, 31);
    assert_eq!(
        world.gives(
            TO_ROOT_2,
            range(MEMORY, 1, 0, 5),
            window,
            hot(0) | FROM_HYPERVISOR
        ),
        1
    );
    assert_eq!(world.row(place(1, MEMORY, 1))[1], 5);
    world.does(REVOKE, ROOT_EC, &[range(MEMORY, 1, 0, 4), 1]);
    assert_eq!(world.row(place(1, MEMORY, 1))[1], 1);
}

#[test]
fn slip_a_live_destination_stays() {
    let mut world = World::partners();
    let window = range(MEMORY, 0, 1, 31);
    let one = range(MEMORY, 20, 0, 1);
    assert_eq!(
        world.gives(
            TO_ROOT_2,
            one,
            range(MEMORY, 0, 0, 0),
            hot(0) | FROM_HYPERVISOR
        ),
        1
    );
    let held = world.row(place(1, MEMORY, 0));
    assert_eq!(
        world.gives(
            TO_ROOT_2,
            range(MEMORY, 30, 1, 7),
            window,
            hot(0) | FROM_HYPERVISOR
        ),
        1
    );
    assert_eq!(world.row(place(1, MEMORY, 0)), held);
    assert_eq!(world.row(place(1, MEMORY, 1))[0], 31);
}

#[test]
fn slip_a_range_place_below_another_range_place_is_not_spared() {
    let mut world = line();
    // Both root places lie in the range 0..3, the second below the first.
    world.does(REVOKE, ROOT_EC, &[range(MEMORY, 0, 2, 1), 0]);
    assert_eq!(permissions(&world), [7, 2, 2]);
    let mut world = line();
    world.does(REVOKE, ROOT_EC, &[range(MEMORY, 0, 2, 31), 0]);
    assert_eq!(permissions(&world), [7, 0, 0]);
}

#[test]
fn slip_revocation_goes_below_the_children() {
    let mut world = line();
    world.does(REVOKE, ROOT_EC, &[range(MEMORY, 1, 0, 31), 0]);
    assert_eq!(permissions(&world), [7, 0, 0]);
    assert_eq!(world.row(place(2, MEMORY, 3)), NULL);
}

#[test]
fn slip_a_revocation_that_can_take_nothing_is_refused() {
    let mut world = World::lenders();
    for mask in [0, 2] {
        let ports = range(IO, 0, 6, mask);
        world.refuses(REVOKE, ROOT_EC, &[ports, 0], Status::BadPar);
    }
    world.does(REVOKE, ROOT_EC, &[range(IO, 0, 6, 3), 0]);
    assert_eq!(world.row(place(2, IO, 8)), NULL);
}

#[test]
fn slip_only_the_root_takes_from_the_hypervisor() {
    let mut world = World::partners();
    let item = (range(MEMORY, 5, 0, 7), hot(0) | FROM_HYPERVISOR);
    let target = windows(0, range(MEMORY, 5, 0, 0));
    // The child sends with H set: its own page 5 is null, so nothing is filled.
    let (filled, block) = world.sends(CHILD_EC, TO_ROOT, message(0, &[item]), target);
    assert_eq!((filled, block[63]), (0, 0));
    assert_eq!(world.row(place(1, MEMORY, 5)), NULL);
    // The root's same item is filled from domain 0.
    let (filled, _) = world.sends(ROOT_EC, TO_CHILD, message(0, &[item]), target);
    assert_eq!(filled, 1);
    // Now the child's own page goes on, H or not.
    let (filled, _) = world.sends(CHILD_EC, TO_ROOT, message(0, &[item]), target);
    assert_eq!(filled, 1);
    assert_eq!(
        world.row(place(1, MEMORY, 5)),
        [5, 7, place(2, MEMORY, 5) + 1, 2]
    );
}

#[test]
fn slip_a_null_window_comes_before_a_malformed_item() {
    let mut world = World::partners();
    let good = range(MEMORY, 0, 6, 31);
    for (item, window, reason) in [
        (MALFORMED, 0, 1),
        (0, MALFORMED, 1),
        (MALFORMED, good, 2),
        (good, MALFORMED, 2),
    ] {
        for kind in [TRANSLATE, DELEGATE] {
            let target = windows(window, window);
            let received = world.shows(ROOT_EC, TO_CHILD, (item, kind), target);
            assert_eq!(received, (0, kind + 2 * reason));
        }
    }
}
