//! What a message moves: untyped words, delegations and translations.

use crate::world::*;

const ODD_NULL: u32 = 0xabcd_ef00;

#[test]
fn untyped_words_are_copied_and_the_rest_stays() {
    let mut world = World::partners();
    let mut source = message(5, &[(0, 0xffff_fffe), (0, 0xffff_ffff)]);
    source[1..4].copy_from_slice(&[1, 2, 3]);
    let target = windows(0x1111, 0x2222);
    let before = world.clone();
    let (filled, block) = world.sends(ROOT_EC, TO_CHILD, source, target);
    assert_eq!(filled, 0);
    assert!(world == before);
    let mut expected = target;
    expected[0] = 5 | 2 << 16;
    expected[4..9].copy_from_slice(&[100, 101, 102, 103, 104]);
    // The items are null: of the second words sent only the kinds arrive, with reason 1.
    expected[60..64].copy_from_slice(&[3, 0, 2, 0]);
    assert_eq!(block, expected);
}

#[test]
fn a_message_may_fill_the_whole_block() {
    let mut world = World::partners();
    let (_, block) = world.sends(ROOT_EC, TO_CHILD, message(60, &[]), windows(0, 0));
    let words: Vec<u32> = (100..160).collect();
    assert_eq!(block[4..], words);
    assert_eq!(model::untyped(&block), words);
    // Thirty items: pages 0 to 29 one by one.
    let items: Vec<(u32, u32)> = (0..30)
        .map(|page| (range(MEMORY, page, 0, 7), hot(page) | FROM_HYPERVISOR))
        .collect();
    let (filled, block) = world.sends(
        ROOT_EC,
        TO_CHILD,
        message(0, &items),
        windows(0, range(MEMORY, 0, 6, 0)),
    );
    assert_eq!(filled, 30);
    for page in 0..30 {
        assert_eq!(block[63 - 2 * page as usize], range(MEMORY, page, 0, 7));
        assert_eq!(block[62 - 2 * page as usize], 1);
        assert_eq!(world.row(place(2, MEMORY, page))[0], page);
    }
}

#[test]
fn an_item_is_null_if_a_descriptor_is_null_malformed_or_of_another_type() {
    let mut world = World::partners();
    let page = range(MEMORY, 3, 0, 7);
    // The root holds page 3, and the child a part of it: both items would work.
    assert_eq!(
        world.gives(TO_ROOT_2, page, page, hot(0) | FROM_HYPERVISOR),
        1
    );
    assert_eq!(world.gives(TO_CHILD, page, page, hot(0)), 1);
    let wide = range(MEMORY, 0, 6, 0);
    // Each with the second words of a translation and of a delegation that it makes null.
    let others = [
        (0, 2, 3),
        (ODD_NULL, 2, 3),
        (MALFORMED, 4, 5),
        (range(MEMORY, 64, 0, 7), 4, 5),
        (range(IO, 3, 0, 7), 6, 7),
        (range(OBJECT, 3, 0, 7), 6, 7),
    ];
    let translate = (page, TRANSLATE);
    let delegate = (page, hot(9));
    let back = |world: &mut World, item, target| world.shows(CHILD_EC, TO_ROOT, item, target);
    // Each kind of item reads its own window only.
    for (other, ..) in others {
        let mut world = world.clone();
        assert_eq!(back(&mut world, translate, windows(wide, other)), (page, 0));
        assert_eq!(
            back(&mut world, delegate, windows(other, wide)),
            (range(MEMORY, 9, 0, 7), 1)
        );
    }
    let before = world.clone();
    for (other, translated, delegated) in others {
        assert_eq!(
            back(&mut world, translate, windows(other, wide)),
            (0, translated)
        );
        assert_eq!(
            back(&mut world, delegate, windows(wide, other)),
            (0, delegated)
        );
        assert_eq!(
            back(&mut world, (other, TRANSLATE), windows(wide, wide)),
            (0, translated)
        );
        assert_eq!(
            back(&mut world, (other, hot(9)), windows(wide, wide)),
            (0, delegated)
        );
        assert!(world == before);
    }
}

#[test]
fn a_delegation_that_fills_nothing_is_null() {
    let mut world = World::partners();
    let window = windows(0, range(MEMORY, 0, 6, 31));
    // No source, no common permission, then a live destination.
    assert_eq!(
        world.shows(ROOT_EC, TO_CHILD, (range(MEMORY, 3, 0, 7), hot(3)), window),
        (0, 9)
    );
    let none = (range(MEMORY, 3, 0, 24), hot(3) | FROM_HYPERVISOR);
    assert_eq!(world.shows(ROOT_EC, TO_CHILD, none, window), (0, 9));
    let item = (range(MEMORY, 3, 0, 31), hot(3) | FROM_HYPERVISOR);
    assert_eq!(
        world.shows(ROOT_EC, TO_CHILD, item, window),
        (range(MEMORY, 3, 0, 31), 1)
    );
    assert_eq!(world.shows(ROOT_EC, TO_CHILD, item, window), (0, 9));
}

#[test]
fn a_delegation_shows_the_smaller_range_and_the_items_mask() {
    let mut world = World::partners();
    // One of the four pages is live already; the window's mask is not read.
    let one = range(MEMORY, 50, 0, 1);
    assert_eq!(
        world.gives(
            TO_CHILD,
            one,
            range(MEMORY, 21, 0, 0),
            hot(0) | FROM_HYPERVISOR
        ),
        1
    );
    let item = (
        range(MEMORY, 8, 2, 29),
        hot(0xfffd7) | FROM_HYPERVISOR | 0x7fe,
    );
    let source = message(0, &[item]);
    let (filled, block) = world.sends(
        ROOT_EC,
        TO_CHILD,
        source,
        windows(0, range(MEMORY, 16, 4, 2)),
    );
    assert_eq!(filled, 3);
    assert_eq!((block[63], block[62]), (range(MEMORY, 20, 2, 29), 1));
    assert_eq!(
        world.row(place(2, MEMORY, 20)),
        [8, 5, place(0, MEMORY, 8) + 1, 1]
    );
    assert_eq!(
        world.row(place(2, MEMORY, 21)),
        [50, 1, place(0, MEMORY, 50) + 1, 1]
    );
    assert_eq!(
        world.row(place(2, MEMORY, 23)),
        [11, 5, place(0, MEMORY, 11) + 1, 1]
    );
}

#[test]
fn equal_orders_do_not_read_the_hotspot() {
    let mut world = World::partners();
    let (item, window) = (range(IO, 8, 2, 31), range(IO, 32, 2, 0));
    assert_eq!(
        world.gives(TO_CHILD, item, window, hot(0xfffff) | FROM_HYPERVISOR),
        4
    );
    assert_eq!(world.row(place(2, IO, 32)), [8, 1, place(0, IO, 8) + 1, 1]);
    assert_eq!(world.row(place(2, IO, 36)), NULL);
}

#[test]
fn object_ranges_wrap() {
    let mut world = World::partners();
    let (item, window) = (
        range(OBJECT, 256 + 32, 0, 31),
        range(OBJECT, 512 + 136, 3, 0),
    );
    let shown = world.shows(ROOT_EC, TO_CHILD, (item, hot(5)), windows(0, window));
    assert_eq!(shown, (range(OBJECT, 141, 0, 31), 1));
    assert_eq!(
        world.row(place(2, OBJECT, 141)),
        [28, 31, place(1, OBJECT, 32) + 1, 1]
    );
}

#[test]
fn each_item_sees_what_the_one_before_left() {
    let mut world = World::partners();
    // Page 4 to the root's 10, that to 11, that to 12; the second try at 11 finds it taken.
    let items = [
        (range(MEMORY, 4, 0, 7), hot(10) | FROM_HYPERVISOR),
        (range(MEMORY, 10, 0, 3), hot(11)),
        (range(MEMORY, 10, 0, 7), hot(11)),
        (range(MEMORY, 11, 0, 7), hot(12)),
        (range(MEMORY, 12, 0, 7), TRANSLATE),
    ];
    let wide = range(MEMORY, 0, 6, 0);
    let (filled, block) = world.sends(ROOT_EC, TO_ROOT_2, message(0, &items), windows(wide, wide));
    assert_eq!(filled, 3);
    let shown = [63, 61, 59, 57, 55].map(|word| block[word]);
    let expected = [
        range(MEMORY, 10, 0, 7),
        range(MEMORY, 11, 0, 3),
        0,
        range(MEMORY, 12, 0, 7),
        range(MEMORY, 11, 0, 3),
    ];
    assert_eq!(shown, expected);
    assert_eq!(
        [62, 60, 58, 56, 54].map(|word| block[word]),
        [1, 1, 9, 1, 0]
    );
    assert_eq!(
        world.row(place(1, MEMORY, 12)),
        [4, 3, place(1, MEMORY, 11) + 1, 3]
    );
}

/// The root's pages 8..15 (pages 0..7 of domain 0) lie at the child's 32..39.
fn lent_pages() -> World {
    let mut world = World::partners();
    let root = range(MEMORY, 8, 3, 0);
    assert_eq!(
        world.gives(
            TO_ROOT_2,
            range(MEMORY, 0, 3, 31),
            root,
            hot(0) | FROM_HYPERVISOR
        ),
        8
    );
    assert_eq!(
        world.gives(
            TO_CHILD,
            range(MEMORY, 8, 3, 31),
            range(MEMORY, 32, 3, 0),
            hot(0)
        ),
        8
    );
    world
}

/// What the root is shown when the child translates a range into a window.
fn translated(world: &mut World, item: u32, window: u32) -> u32 {
    let before = world.clone();
    let item = (item, 0xffff_fffe);
    let (filled, block) = world.sends(CHILD_EC, TO_ROOT, message(0, &[item]), windows(window, 0));
    assert!(*world == before, "a translation changed a table");
    let second = if block[63] == 0 { 10 } else { 0 };
    assert_eq!((filled, block[62]), (0, second));
    block[63]
}

#[test]
fn a_translation_finds_the_receivers_range() {
    let mut world = lent_pages();
    let wide = range(MEMORY, 0, 6, 0);
    for order in 0..4 {
        let shown = translated(&mut world, range(MEMORY, 32, order, 31), wide);
        assert_eq!(shown, range(MEMORY, 8, order, 7));
    }
    assert_eq!(
        translated(&mut world, range(MEMORY, 36, 1, 2), wide),
        range(MEMORY, 12, 1, 2)
    );
    // The mask is cut by every sender permission, and may end empty without being null.
    world.does(REVOKE, CHILD_EC, &[range(MEMORY, 37, 0, 2), 1]);
    assert_eq!(
        translated(&mut world, range(MEMORY, 36, 1, 31), wide),
        range(MEMORY, 12, 1, 5)
    );
    assert_eq!(
        translated(&mut world, range(MEMORY, 36, 1, 2), wide),
        range(MEMORY, 12, 1, 0)
    );
    assert_eq!(
        translated(&mut world, range(MEMORY, 36, 1, 0), wide),
        range(MEMORY, 12, 1, 0)
    );
}

#[test]
fn a_translation_stays_inside_the_window() {
    let mut world = lent_pages();
    let pair = range(MEMORY, 34, 1, 31);
    let shown = range(MEMORY, 10, 1, 7);
    for window in [
        range(MEMORY, 10, 1, 0),
        range(MEMORY, 8, 2, 0),
        range(MEMORY, 8, 3, 31),
    ] {
        assert_eq!(translated(&mut world, pair, window), shown);
    }
    for window in [
        range(MEMORY, 10, 0, 0),
        range(MEMORY, 11, 0, 0),
        range(MEMORY, 12, 2, 0),
        range(MEMORY, 0, 3, 0),
    ] {
        assert_eq!(translated(&mut world, pair, window), 0);
    }
    // The whole range must lie inside, not its start alone.
    assert_eq!(
        translated(
            &mut world,
            range(MEMORY, 32, 3, 31),
            range(MEMORY, 8, 2, 31)
        ),
        0
    );
}

#[test]
fn a_translation_needs_every_place() {
    let mut world = lent_pages();
    let wide = range(MEMORY, 0, 6, 31);
    // A null place, at the start or later.
    assert_eq!(translated(&mut world, range(MEMORY, 40, 0, 31), wide), 0);
    assert_eq!(translated(&mut world, range(MEMORY, 32, 4, 31), wide), 0);
    // A place without an ancestor there: page 40 straight from domain 0.
    let straight = range(MEMORY, 40, 0, 31);
    assert_eq!(
        world.gives(TO_CHILD, straight, straight, hot(0) | FROM_HYPERVISOR),
        1
    );
    assert_eq!(translated(&mut world, straight, wide), 0);
    // Order 1 around 48 with the halves swapped: neither position nor alignment fits.
    for (from, to) in [(9, 48), (8, 49), (8, 50), (12, 51), (9, 52), (10, 53)] {
        let (item, window) = (range(MEMORY, from, 0, 31), range(MEMORY, to, 0, 0));
        assert_eq!(world.gives(TO_CHILD, item, window, hot(0)), 1);
    }
    assert_eq!(
        translated(&mut world, range(MEMORY, 49, 0, 31), wide),
        range(MEMORY, 8, 0, 7)
    );
    assert_eq!(translated(&mut world, range(MEMORY, 48, 1, 31), wide), 0);
    // A second place that came from elsewhere.
    assert_eq!(translated(&mut world, range(MEMORY, 50, 1, 31), wide), 0);
    // Rising places from an unaligned start.
    assert_eq!(translated(&mut world, range(MEMORY, 52, 1, 31), wide), 0);
}

#[test]
fn the_nearest_ancestor_decides() {
    let mut world = World::partners();
    // Page 5: root 1, root 2, child 3: the child's ancestors in the root are 2, then 1.
    let wide = range(MEMORY, 0, 6, 0);
    assert_eq!(
        world.gives(
            TO_ROOT_2,
            range(MEMORY, 5, 0, 7),
            wide,
            hot(1) | FROM_HYPERVISOR
        ),
        1
    );
    assert_eq!(
        world.gives(TO_ROOT_2, range(MEMORY, 1, 0, 7), wide, hot(2)),
        1
    );
    assert_eq!(
        world.gives(TO_CHILD, range(MEMORY, 2, 0, 7), wide, hot(3)),
        1
    );
    let item = range(MEMORY, 3, 0, 7);
    assert_eq!(translated(&mut world, item, wide), range(MEMORY, 2, 0, 7));
    assert_eq!(
        translated(&mut world, item, range(MEMORY, 2, 0, 0)),
        range(MEMORY, 2, 0, 7)
    );
    // The window around the further ancestor only gives nothing.
    assert_eq!(translated(&mut world, item, range(MEMORY, 1, 0, 0)), 0);
    // Within one domain the place itself does not count.
    let own = |world: &mut World, base| {
        let item = (range(MEMORY, base, 0, 7), TRANSLATE);
        world.shows(ROOT_EC, TO_ROOT_2, item, windows(wide, 0)).0
    };
    assert_eq!(own(&mut world, 2), range(MEMORY, 1, 0, 7));
    assert_eq!(own(&mut world, 1), 0);
    // Through another domain and back: root 6 came from child 3, whose nearest child ancestor is none.
    let item = (range(MEMORY, 3, 0, 7), hot(6));
    let (filled, _) = world.sends(CHILD_EC, TO_ROOT, message(0, &[item]), windows(0, wide));
    assert_eq!(filled, 1);
    assert_eq!(own(&mut world, 6), range(MEMORY, 2, 0, 7));
    let item = (range(MEMORY, 6, 0, 7), TRANSLATE);
    assert_eq!(
        world.shows(ROOT_EC, TO_CHILD, item, windows(wide, 0)).0,
        range(MEMORY, 3, 0, 7)
    );
}

#[test]
fn windows_and_selectors_are_read_in_their_own_domains() {
    let mut world = World::partners();
    // The child's selector for the portal is the child's, not the root's.
    let portal = range(OBJECT, TO_ROOT, 0, 31);
    assert_eq!(
        world.gives(TO_CHILD, portal, range(OBJECT, 9, 0, 0), hot(0)),
        1
    );
    world.sends(CHILD_EC, 9, message(0, &[]), windows(0, 0));
    assert_eq!(world.row(place(1, OBJECT, 9)), NULL);
    // The second EC of the root may call the first through the root's portal.
    world.sends(ROOT_EC_2, TO_ROOT, message(0, &[]), windows(0, 0));
}
