//! Long chains of delegations: made to the depth limit and refused beyond it, walked up by
//! translations, counted and revoked.

use model::{is_sound, Status};

use crate::world::*;

/// A domain and a selector.
type At = (u32, u32);

const fn number(space: u32, (domain, selector): At) -> u32 {
    place(domain, space, selector)
}

/// A descriptor of the whole space.
const fn whole(space: u32) -> u32 {
    range(space, 0, ORDERS[space as usize], 0)
}

/// Hands a range on, from domain 0 by the root, and gives the number of places filled.
fn hand(world: &mut World, space: u32, order: u32, from: At, to: At) -> u32 {
    let (caller, portal, flag) = match (from.0, to.0) {
        (0, 1) => (ROOT_EC, TO_ROOT_2, FROM_HYPERVISOR),
        (0, _) => (ROOT_EC, TO_CHILD, FROM_HYPERVISOR),
        (1, 1) => (ROOT_EC, TO_ROOT_2, 0),
        (1, _) => (ROOT_EC, TO_CHILD, 0),
        _ => (CHILD_EC, TO_ROOT, 0),
    };
    let item = (range(space, from.1, order, 31), hot(to.1) | flag);
    let target = windows(0, whole(space));
    let (filled, block) = world.sends(caller, portal, message(0, &[item]), target);
    let received = match filled {
        0 => (0, 9),
        _ => (range(space, to.1, order, 31), 1),
    };
    assert_eq!((block[63], block[62]), received);
    filled
}

/// Hands one place on along a path.
fn walk(world: &mut World, space: u32, path: &[At]) {
    for step in path.windows(2) {
        assert_eq!(hand(world, space, 0, step[0], step[1]), 1, "{step:?}");
    }
}

/// What the child is shown when the root translates a range into a window.
fn shown(world: &World, item: u32, window: u32) -> (u32, u32) {
    let mut after = world.clone();
    let shown = after.shows(ROOT_EC, TO_CHILD, (item, TRANSLATE), windows(window, 0));
    assert!(after == *world, "a translation changed a table");
    shown
}

/// The partners, where resource 4 of domain 0 goes through 63 places of the root, which has
/// given up a page to have as many; and the path.
fn straight(space: u32) -> (World, Vec<At>) {
    let mut world = World::partners();
    world.does(REVOKE, ROOT_EC, &[range(MEMORY, 63, 0, 31), 1]);
    let selectors: Vec<u32> = match space {
        MEMORY => (0..62).chain([63]).collect(),
        IO => (0..63).collect(),
        _ => (100..163).collect(),
    };
    let own = selectors.into_iter().map(|selector| (1, selector));
    let path: Vec<At> = [(0, 4)].into_iter().chain(own).collect();
    walk(&mut world, space, &path);
    (world, path)
}

#[test]
fn a_chain_of_63_stands_and_a_64th_delegation_is_not_made() {
    for space in [MEMORY, IO, OBJECT] {
        let (mut world, path) = straight(space);
        let greatest = [7, 1, 3][space as usize];
        for (depth, step) in (1..).zip(path.windows(2)) {
            let row = [4, greatest, number(space, step[0]) + 1, depth];
            assert_eq!(world.row(number(space, step[1])), row);
        }
        let last = path[63];
        assert_eq!(world.row(number(space, last))[3], DEPTH_LIMIT);
        assert!(is_sound(&world.places, &world.objects));
        let before = world.clone();
        let free = if space == OBJECT { 163 } else { 8 };
        assert_eq!(hand(&mut world, space, 0, last, (2, free)), 0);
        if space == OBJECT {
            assert_eq!(hand(&mut world, space, 0, last, (1, free)), 0);
        }
        assert!(world == before);
        // The place above the last one has still one delegation to make.
        assert_eq!(hand(&mut world, space, 0, path[62], (2, free)), 1);
        assert_eq!(world.row(number(space, (2, free)))[3], DEPTH_LIMIT);
    }
}

#[test]
fn of_a_range_the_places_below_the_limit_go_on() {
    let (mut world, path) = straight(OBJECT);
    assert_eq!(
        path[59..],
        [(1, 158), (1, 159), (1, 160), (1, 161), (1, 162)]
    );
    // Of the selectors 160..163 the last is null and the one before it is at the limit.
    let item = (range(OBJECT, 160, 2, 31), hot(160));
    let (filled, block) = world.clone().sends(
        ROOT_EC,
        TO_CHILD,
        message(0, &[item]),
        windows(0, whole(OBJECT)),
    );
    assert_eq!((filled, block[63]), (2, range(OBJECT, 160, 2, 31)));
    // The same where a new domain gets them.
    let initial = range(OBJECT, 160, 2, 31);
    world.does(CREATE_PD, ROOT_EC, &[50, 32, initial]);
    for (selector, depth) in [(160, 62), (161, 63), (162, 0), (163, 0)] {
        assert_eq!(world.row(place(3, OBJECT, selector))[3], depth);
    }
    assert_eq!(world.row(place(3, OBJECT, 162)), NULL);
}

#[test]
fn a_translation_walks_a_whole_chain_in_vain() {
    for space in [MEMORY, IO, OBJECT] {
        let (world, path) = straight(space);
        for &(_, selector) in &path[1..] {
            let item = range(space, selector, 0, 31);
            assert_eq!(shown(&world, item, whole(space)), (0, 10));
        }
    }
}

#[test]
fn a_translation_walks_up_to_the_first_place_that_was_lent() {
    for space in [MEMORY, IO, OBJECT] {
        // Through the child at depth 1, then through 62 places of the root.
        let first = if space == OBJECT { 100 } else { 0 };
        let own = (first..first + 62).map(|selector| (1, selector));
        let path: Vec<At> = [(0, 4), (2, 5)].into_iter().chain(own).collect();
        let mut world = World::partners();
        walk(&mut world, space, &path);
        assert_eq!(world.row(number(space, path[63]))[3], DEPTH_LIMIT);
        let found = (range(space, 5, 0, [7, 1, 3][space as usize]), 0);
        for &(_, selector) in &path[2..] {
            let item = range(space, selector, 0, 31);
            assert_eq!(shown(&world, item, whole(space)), found, "from {selector}");
            assert_eq!(shown(&world, item, range(space, 4, 1, 0)), found);
            assert_eq!(shown(&world, item, range(space, 6, 1, 0)), (0, 10));
        }
    }
}

/// The root's selector, in `pairs`, of the pair at a depth.
const fn pair(depth: u32) -> u32 {
    62 + 2 * depth
}

/// The partners, where the child has semaphores of its own at selectors 100 and 101 and lends
/// both to the root, which lends them to itself, from each pair to the next one, to depth 63.
fn pairs() -> World {
    let mut world = World::partners();
    let pd = range(OBJECT, 32, 0, 31);
    assert_eq!(world.gives(TO_CHILD, pd, pd, hot(0)), 1);
    for selector in [100, 101] {
        world.does(CREATE_SM, CHILD_EC, &[selector, 32, 0]);
    }
    assert_eq!(hand(&mut world, OBJECT, 1, (2, 100), (1, pair(1))), 2);
    for depth in 1..DEPTH_LIMIT {
        let (from, to) = ((1, pair(depth)), (1, pair(depth + 1)));
        assert_eq!(hand(&mut world, OBJECT, 1, from, to), 2);
    }
    world
}

#[test]
fn a_translation_walks_up_63_steps() {
    let mut world = pairs();
    assert_eq!(world.row(place(2, OBJECT, 100)), [37, 3, 0, 0]);
    for depth in 1..=DEPTH_LIMIT {
        let selector = pair(depth);
        assert_eq!(world.row(place(1, OBJECT, selector))[3], depth);
        let both = range(OBJECT, selector, 1, 31);
        let second = range(OBJECT, selector + 1, 0, 31);
        for window in [whole(OBJECT), range(OBJECT, 96, 3, 0)] {
            let found = (range(OBJECT, 100, 1, 3), 0);
            assert_eq!(shown(&world, both, window), found, "depth {depth}");
            let found = (range(OBJECT, 101, 0, 3), 0);
            assert_eq!(shown(&world, second, window), found, "depth {depth}");
        }
        for window in [range(OBJECT, 64, 5, 0), range(OBJECT, 128, 7, 0)] {
            assert_eq!(shown(&world, both, window), (0, 10));
        }
    }
    // The mask is cut by the sender's place, not by those above it.
    let last = pair(DEPTH_LIMIT);
    world.does(REVOKE, ROOT_EC, &[range(OBJECT, last, 0, 2), 1]);
    let both = range(OBJECT, last, 1, 31);
    assert_eq!(
        shown(&world, both, whole(OBJECT)),
        (range(OBJECT, 100, 1, 1), 0)
    );
    // Within the root the nearest place is the pair before.
    let item = (range(OBJECT, last, 1, 31), TRANSLATE);
    let nearest = world.shows(ROOT_EC, TO_ROOT_2, item, windows(whole(OBJECT), 0));
    assert_eq!(nearest, (range(OBJECT, last - 2, 1, 1), 0));
}

#[test]
fn a_census_counts_a_whole_chain() {
    let world = pairs();
    for depth in 0..=DEPTH_LIMIT {
        let origin = match depth {
            0 => place(2, OBJECT, 100),
            _ => place(1, OBJECT, pair(depth)),
        };
        let below = depth + 1..=DEPTH_LIMIT;
        let heirs: Vec<u32> = below.map(|depth| place(1, OBJECT, pair(depth))).collect();
        assert_eq!(world.heirs(origin), heirs);
        let mut short = vec![7; heirs.len().saturating_sub(1)];
        if !heirs.is_empty() {
            let reply = world.census(origin, &mut short);
            assert_eq!(
                (reply.status, reply.answer),
                (Status::Short, heirs.len() as u32)
            );
        }
    }
}

#[test]
fn a_revocation_takes_a_whole_chain() {
    let world = pairs();
    // By the child at the start, then by the root at a pair.
    for depth in 0..=DEPTH_LIMIT {
        let (caller, selector) = match depth {
            0 => (CHILD_EC, 100),
            _ => (ROOT_EC, pair(depth)),
        };
        for mask in [1, 2, 31] {
            let (mut after, mut expected) = (world.clone(), world.clone());
            after.does(REVOKE, caller, &[range(OBJECT, selector, 0, mask), 0]);
            for below in depth + 1..=DEPTH_LIMIT {
                let number = place(1, OBJECT, pair(below));
                let [resource, permissions, parent, depth] = world.row(number);
                let row = match permissions & !mask {
                    0 => NULL,
                    left => [resource, left, parent, depth],
                };
                expected.set_row(number, row);
            }
            assert!(after == expected, "mask {mask} at depth {depth}");
        }
    }
}

#[test]
fn a_chain_towards_lower_selectors_is_counted_and_revoked() {
    let own = (101..164).rev().map(|selector| (1, selector));
    let path: Vec<At> = [(0, 4)].into_iter().chain(own).collect();
    let mut world = World::partners();
    let before = world.clone();
    walk(&mut world, OBJECT, &path);
    for (depth, &at) in path.iter().enumerate() {
        let below = path[depth + 1..].iter().rev();
        let heirs: Vec<u32> = below.map(|&at| number(OBJECT, at)).collect();
        assert_eq!(world.heirs(number(OBJECT, at)), heirs);
    }
    let mut expected = before;
    expected.set_row(place(1, OBJECT, 163), world.row(place(1, OBJECT, 163)));
    world.does(REVOKE, ROOT_EC, &[range(OBJECT, 163, 0, 31), 0]);
    assert!(world == expected);
}

#[test]
fn a_chain_that_was_cut_can_grow_again() {
    let mut world = pairs();
    let (above, cut, last) = (pair(61), pair(62), pair(63));
    world.does(REVOKE, ROOT_EC, &[range(OBJECT, above, 1, 31), 0]);
    assert_eq!(world.row(place(1, OBJECT, last)), NULL);
    assert_eq!(hand(&mut world, OBJECT, 1, (1, above), (1, cut)), 2);
    assert_eq!(hand(&mut world, OBJECT, 1, (1, cut), (1, last)), 2);
    assert!(world == pairs());
    assert_eq!(hand(&mut world, OBJECT, 1, (1, last), (1, last + 2)), 0);
}
