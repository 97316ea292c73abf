//! The pages that boot lends the root: handed on, shown, given up and taken again.

use model::Status;

use crate::world::*;

const WIDE: u32 = range(MEMORY, 0, 6, 0);
const BOTH: u32 = range(MEMORY, 62, 1, 31);

/// A page of the child that is null in `World::partners`.
const CHILD_PAGE: u32 = 5;
const CHILD_PLACE: u32 = place(2, MEMORY, CHILD_PAGE);

/// The root's place of a page.
const fn own(page: u32) -> u32 {
    place(1, MEMORY, page)
}

/// Domain 0's place of a page.
const fn origin(page: u32) -> u32 {
    place(0, MEMORY, page)
}

const fn one(page: u32) -> u32 {
    range(MEMORY, page, 0, 31)
}

/// The root asks domain 0 for pages at the same selectors; the number of places filled.
fn takes(world: &mut World, item: u32) -> u32 {
    world.gives(TO_ROOT_2, item, item, hot(0) | FROM_HYPERVISOR)
}

/// The partners, where the child has the root's page with all permissions of the root's.
fn handed_on(page: u32) -> World {
    let mut world = World::partners();
    let window = range(MEMORY, CHILD_PAGE, 0, 0);
    assert_eq!(world.gives(TO_CHILD, one(page), window, hot(0)), 1);
    world
}

/// A row that lost the permissions of a mask.
fn without(row: [u32; 4], mask: u32) -> [u32; 4] {
    let [resource, permissions, parent, depth] = row;
    match permissions & !mask {
        0 => NULL,
        left => [resource, left, parent, depth],
    }
}

#[test]
fn boot_lends_what_a_delegation_would() {
    let mut world = World::partners();
    let booted = world.clone();
    world.does(REVOKE, ROOT_EC, &[BOTH, 1]);
    for (page, mask) in ROOT_PAGES {
        assert_eq!(world.row(own(page)), NULL);
        assert_eq!(takes(&mut world, range(MEMORY, page, 0, mask)), 1);
    }
    assert!(world == booted);
}

#[test]
fn a_page_handed_on_descends_from_the_roots_and_from_domain_0s() {
    for (page, permissions) in ROOT_PAGES {
        let mut world = handed_on(page);
        let mut expected = World::partners();
        let row = [page, permissions, own(page) + 1, 2];
        expected.set_row(CHILD_PLACE, row);
        assert!(world == expected);
        assert_eq!(world.heirs(origin(page)), [own(page), CHILD_PLACE]);
        assert_eq!(world.heirs(own(page)), [CHILD_PLACE]);
        // A lower place of the root comes first in the list.
        let lower = place(1, MEMORY, 3);
        assert_eq!(world.gives(TO_ROOT_2, one(page), WIDE, hot(3)), 1);
        expected.set_row(lower, row);
        assert!(world == expected);
        assert_eq!(world.heirs(origin(page)), [lower, own(page), CHILD_PLACE]);
        assert_eq!(world.heirs(own(page)), [lower, CHILD_PLACE]);
    }
}

#[test]
fn a_page_is_handed_on_with_no_more_than_the_roots_permissions() {
    for (page, permissions) in ROOT_PAGES {
        for mask in 0..32 {
            let mut world = World::partners();
            let mut expected = world.clone();
            let given = permissions & mask;
            let item = (range(MEMORY, page, 0, mask), hot(CHILD_PAGE));
            let shown = world.shows(ROOT_EC, TO_CHILD, item, windows(0, WIDE));
            if given == 0 {
                assert_eq!(shown, (0, 9));
            } else {
                assert_eq!(shown, (range(MEMORY, CHILD_PAGE, 0, mask), 1));
                expected.set_row(CHILD_PLACE, [page, given, own(page) + 1, 2]);
            }
            assert!(world == expected, "page {page}, mask {mask}");
        }
    }
}

#[test]
fn a_page_handed_on_translates_to_the_roots() {
    for (page, permissions) in ROOT_PAGES {
        let mut world = handed_on(page);
        let item = (one(CHILD_PAGE), TRANSLATE);
        let mut shown = |window: u32| world.shows(CHILD_EC, TO_ROOT, item, windows(window, 0));
        let found = (range(MEMORY, page, 0, permissions), 0);
        assert_eq!(shown(WIDE), found);
        assert_eq!(shown(BOTH), found);
        assert_eq!(shown(one(page)), found);
        // The other page and the child's own selector are not where it came from.
        assert_eq!(shown(one(page ^ 1)), (0, 10));
        assert_eq!(shown(one(CHILD_PAGE)), (0, 10));
    }
}

#[test]
fn both_pages_translate_as_a_range() {
    let mut world = World::partners();
    let pair = range(MEMORY, 8, 1, 31);
    assert_eq!(world.gives(TO_CHILD, BOTH, pair, hot(0)), 2);
    let shown = world.shows(CHILD_EC, TO_ROOT, (pair, TRANSLATE), windows(WIDE, 0));
    assert_eq!(shown, (range(MEMORY, 62, 1, 1), 0));
}

#[test]
fn the_roots_own_pages_came_from_no_domain_that_is_called() {
    let mut world = World::partners();
    for (page, _) in ROOT_PAGES {
        for portal in [TO_ROOT_2, TO_CHILD] {
            let item = (one(page), TRANSLATE);
            let shown = world.shows(ROOT_EC, portal, item, windows(WIDE, 0));
            assert_eq!(shown, (0, 10));
        }
    }
}

#[test]
fn a_revocation_takes_from_the_page_and_below_it_alone() {
    for (page, _) in ROOT_PAGES {
        let before = handed_on(page);
        for (mask, own_too) in (1..8).flat_map(|mask| [(mask, 0), (mask, 1)]) {
            let (mut world, mut expected) = (before.clone(), before.clone());
            let arguments = [range(MEMORY, page, 0, mask), own_too];
            assert_eq!(world.does(REVOKE, ROOT_EC, &arguments), 0);
            expected.set_row(CHILD_PLACE, without(before.row(CHILD_PLACE), mask));
            if own_too == 1 {
                expected.set_row(own(page), without(before.row(own(page)), mask));
            }
            assert!(world == expected, "page {page}: {arguments:?}");
            assert_eq!(world.row(origin(page)), [page, 7, 0, 0]);
        }
    }
}

#[test]
fn a_page_that_was_given_up_is_null() {
    for (page, _) in ROOT_PAGES {
        let mut world = handed_on(page);
        let mut expected = World::partners();
        expected.set_row(own(page), NULL);
        world.does(REVOKE, ROOT_EC, &[one(page), 1]);
        assert!(world == expected);
        assert_eq!(world.does(LOOKUP, ROOT_EC, &[one(page)]), 0);
        assert!(world.heirs(origin(page)).is_empty());
        let reply = world.census(own(page), &mut []);
        assert_eq!(reply.status, Status::BadCap);
        assert_eq!(world.gives(TO_CHILD, one(page), WIDE, hot(0)), 0);
        assert!(world == expected);
    }
}

#[test]
fn a_page_that_was_given_up_can_be_taken_again() {
    for (page, _) in ROOT_PAGES {
        for mask in 1..32 {
            let mut world = World::partners();
            let mut expected = world.clone();
            world.does(REVOKE, ROOT_EC, &[one(page), 1]);
            let taken = takes(&mut world, range(MEMORY, page, 0, mask));
            let row = match mask & 7 {
                0 => NULL,
                given => [page, given, origin(page) + 1, 1],
            };
            expected.set_row(own(page), row);
            assert_eq!(taken, u32::from(row != NULL));
            assert!(world == expected, "page {page}, mask {mask}");
            let heirs = vec![own(page); taken as usize];
            assert_eq!(world.heirs(origin(page)), heirs);
        }
    }
}

#[test]
fn a_live_page_is_not_taken() {
    let mut world = World::partners();
    let before = world.clone();
    for item in [one(62), one(63), BOTH] {
        let second = hot(0) | FROM_HYPERVISOR;
        let shown = world.shows(ROOT_EC, TO_ROOT_2, (item, second), windows(0, item));
        assert_eq!(shown, (0, 9));
        assert!(world == before);
    }
    // Of both the one that is null.
    for (page, _) in ROOT_PAGES {
        let (mut world, mut expected) = (before.clone(), before.clone());
        world.does(REVOKE, ROOT_EC, &[one(page), 1]);
        assert_eq!(takes(&mut world, BOTH), 1);
        expected.set_row(own(page), [page, 7, origin(page) + 1, 1]);
        assert!(world == expected);
    }
}

#[test]
fn the_pages_are_looked_up_as_one_where_their_permissions_are_equal() {
    let looked_up = |world: &mut World| {
        [61, 62, 63].map(|page| world.does(LOOKUP, ROOT_EC, &[range(MEMORY, page, 0, 0)]))
    };
    let mut world = World::partners();
    let apart = [0, range(MEMORY, 62, 0, 3), range(MEMORY, 63, 0, 1)];
    assert_eq!(looked_up(&mut world), apart);
    world.does(REVOKE, ROOT_EC, &[range(MEMORY, 62, 0, 2), 1]);
    let read = range(MEMORY, 62, 1, 1);
    assert_eq!(looked_up(&mut world), [0, read, read]);
    world.does(REVOKE, ROOT_EC, &[BOTH, 1]);
    assert_eq!(looked_up(&mut world), [0; 3]);
    assert_eq!(takes(&mut world, BOTH), 2);
    let all = range(MEMORY, 62, 1, 7);
    assert_eq!(looked_up(&mut world), [0, all, all]);
}
