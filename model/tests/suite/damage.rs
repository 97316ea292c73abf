//! Each rule of sound tables broken alone, and the fused test against the report.

use model::generator::{self, Kind};
use model::journal::{Replay, Step};
use model::random::Random;
use model::{damage, is_sound, Damage, Location};

use crate::world::*;

/// The partners, with an SC, an SM and a line of pages.
fn furnished() -> World {
    let mut world = World::partners();
    world.does(CREATE_SC, ROOT_EC, &[42, 32, 36, 0x0fff_f0ff]);
    world.does(CREATE_SM, ROOT_EC, &[43, 32, 8]);
    let page = range(MEMORY, 1, 0, 3);
    assert_eq!(
        world.gives(TO_ROOT_2, page, page, hot(0) | FROM_HYPERVISOR),
        1
    );
    assert_eq!(
        world.gives(TO_CHILD, page, range(MEMORY, 2, 0, 0), hot(0)),
        1
    );
    let port = range(IO, 60, 0, 1);
    assert_eq!(
        world.gives(TO_CHILD, port, port, hot(0) | FROM_HYPERVISOR),
        1
    );
    assert_eq!(damage(&world.places, &world.objects), None);
    world
}

fn report(world: &World) -> Option<Damage> {
    let report = damage(&world.places, &world.objects);
    assert_eq!(is_sound(&world.places, &world.objects), report.is_none());
    report
}

fn breaks(world: &World, rule: u32, at: Location) {
    assert_eq!(report(world), Some(Damage { rule, at }));
}

fn record_breaks(number: u32, record: [u32; 5], rule: u32) {
    let mut world = furnished();
    assert_ne!(world.record(number), record);
    world.set_record(number, record);
    breaks(&world, rule, Location::Record(number));
}

fn place_breaks(number: u32, row: [u32; 4], rule: u32) {
    let mut world = furnished();
    assert_ne!(world.row(number), row);
    world.set_row(number, row);
    breaks(&world, rule, Location::Place(number));
}

fn row_stays_sound(number: u32, row: [u32; 4]) {
    let mut world = furnished();
    world.set_row(number, row);
    assert_eq!(report(&world), None);
}

#[test]
fn rule_1_lengths() {
    for (places, objects) in [
        (12_287, 320),
        (12_284, 320),
        (12_289, 320),
        (12_292, 320),
        (6144, 320),
        (12_288, 319),
        (12_288, 315),
        (12_288, 321),
        (12_288, 325),
        (0, 320),
        (12_288, 0),
    ] {
        let mut world = furnished();
        world.places.resize(places, 0);
        world.objects.resize(objects, 0);
        breaks(&world, 1, Location::Nowhere);
    }
}

#[test]
fn rule_2_as_at_boot() {
    for number in [0, 3] {
        record_breaks(number, [3, 29, 0, 0, 0], 2);
        record_breaks(number, [0; 5], 2);
    }
    record_breaks(28, [1, 2, 0, 0, 0], 2);
    record_breaks(29, [2, 1, 1, 0, 0], 2);
    record_breaks(29, [2, 1, 0, 1, 0], 2);
    record_breaks(30, [3, 29, 2, 10_000, 0], 2);
    record_breaks(30, [3, 29, 1, 10_000, 1], 2);
    place_breaks(place(0, MEMORY, 0), [0, 3, 0, 0], 2);
    place_breaks(place(0, MEMORY, 63), NULL, 2);
    place_breaks(place(0, IO, 5), [4, 1, 0, 0], 2);
    place_breaks(place(0, OBJECT, 27), [27, 1, 0, 0], 2);
    place_breaks(place(0, OBJECT, 28), [28, 31, 0, 0], 2);
    place_breaks(place(0, OBJECT, 63), [0, 0, 0, 1], 2);
    place_breaks(place(0, OBJECT, 64), [0, 0, 1, 0], 2);
    place_breaks(383, [28, 31, 0, 0], 2);
    // Records come before places.
    let mut world = furnished();
    world.set_row(0, NULL);
    world.set_record(30, [0; 5]);
    breaks(&world, 2, Location::Record(30));
}

#[test]
fn rule_3_interrupt_semaphores() {
    for number in [4, 15, 27] {
        record_breaks(number, [0; 5], 3);
        record_breaks(number, [2, 1, 0, 0, 0], 3);
        record_breaks(number, [9, 0, 0, 0, 0], 3);
    }
    let mut world = furnished();
    world.set_record(4, [5, u32::MAX, 0, 0, 0]);
    assert_eq!(report(&world), None);
}

#[test]
fn rule_4_kinds_and_unnamed_words() {
    // 31 PD, 32 EC, 33 PT, 37 SC, 38 SM.
    record_breaks(38, [6, 0, 0, 0, 0], 4);
    record_breaks(38, [u32::MAX, 0, 0, 0, 0], 4);
    record_breaks(63, [6, 0, 0, 0, 0], 4);
    for word in 2..5 {
        for (number, named) in [(31, 1), (32, 3), (37, 3), (38, 1), (10, 1)] {
            let mut record = furnished().record(number);
            record[word] = 1 << 31;
            if word > named {
                record_breaks(number, record, 4);
            }
        }
    }
}

#[test]
fn rule_5_used_records_first() {
    record_breaks(39, [0, 1, 0, 0, 0], 5);
    record_breaks(63, [0, 0, 0, 0, 1], 5);
    record_breaks(40, [5, 0, 0, 0, 0], 5);
    let mut world = furnished();
    world.set_record(39, [5, 7, 0, 0, 0]);
    assert_eq!(report(&world), None);
    // A free record in the middle: the one after it breaks the rule.
    world.set_record(37, [0; 5]);
    breaks(&world, 5, Location::Record(38));
}

#[test]
fn rule_6_numbering_of_domains() {
    for domain in [0, 1, 3, 8, u32::MAX] {
        record_breaks(31, [1, domain, 0, 0, 0], 6);
    }
    let mut world = furnished();
    for (number, domain) in (39..44).zip(3..) {
        world.set_record(number, [1, domain, 0, 0, 0]);
    }
    assert_eq!(report(&world), None);
    world.set_record(44, [1, 8, 0, 0, 0]);
    breaks(&world, 6, Location::Record(44));
    world.set_record(40, [1, 3, 0, 0, 0]);
    breaks(&world, 6, Location::Record(40));
}

#[test]
fn rule_7_execution_contexts() {
    for record in [
        [2, 0, 0, 0, 0],
        [2, 3, 0, 0, 0],
        [2, 7, 0, 0, 0],
        [2, u32::MAX, 0, 0, 0],
        [2, 2, 4, 0, 0],
        [2, 2, 0, 256, 0],
        [2, 2, 0, u32::MAX, 0],
    ] {
        record_breaks(32, record, 7);
    }
    let mut world = furnished();
    for event_base in [63, 64, 128, 255] {
        world.set_record(32, [2, 1, 3, event_base, 0]);
        assert_eq!(report(&world), None);
    }
    // The PD may come after the EC.
    world.set_record(39, [2, 3, 0, 0, 0]);
    breaks(&world, 7, Location::Record(39));
    world.set_record(40, [1, 3, 0, 0, 0]);
    assert_eq!(report(&world), None);
}

#[test]
fn rule_8_later_scheduling_contexts() {
    for ec in [0, 28, 31, 39, 63, 64, u32::MAX] {
        record_breaks(37, [3, ec, 1, 1, 0], 8);
    }
    for (priority, quantum) in [
        (0, 1),
        (256, 1),
        (1, 0),
        (1, 1 << 20),
        (u32::MAX, 1),
        (1, u32::MAX),
    ] {
        record_breaks(37, [3, 32, priority, quantum, 0], 8);
    }
    for (priority, quantum) in [(1, 1), (255, (1 << 20) - 1)] {
        let mut world = furnished();
        world.set_record(37, [3, 34, priority, quantum, 0]);
        assert_eq!(report(&world), None);
    }
}

#[test]
fn rule_9_portals() {
    for ec in [0, 28, 30, 39, 63, 64, 96, u32::MAX] {
        record_breaks(33, [4, ec, 1, 1, 0], 9);
    }
    let mut world = furnished();
    world.set_record(33, [4, 34, u32::MAX, u32::MAX, u32::MAX]);
    assert_eq!(report(&world), None);
}

#[test]
fn rule_10_null_places() {
    for number in [
        place(1, MEMORY, 0),
        place(2, IO, 3),
        place(4, MEMORY, 0),
        place(5, IO, 63),
        place(7, OBJECT, 63),
        place(7, OBJECT, 64),
        place(7, OBJECT, 255),
    ] {
        place_breaks(number, [1, 0, 0, 0], 10);
        place_breaks(number, [0, 0, 1, 0], 10);
        place_breaks(number, [0, 0, 0, 1], 10);
    }
}

#[test]
fn rule_11_live_places() {
    let (first, second) = (place(1, MEMORY, 1), place(2, MEMORY, 2));
    let world = furnished();
    assert_eq!(world.row(first), [1, 3, place(0, MEMORY, 1) + 1, 1]);
    assert_eq!(world.row(second), [1, 3, first + 1, 2]);
    let spare = place(2, MEMORY, 9);
    // Sound: a second heir, and one with fewer permissions.
    row_stays_sound(spare, [1, 3, first + 1, 2]);
    row_stays_sound(spare, [1, 2, first + 1, 2]);
    row_stays_sound(spare, [63, 7, place(0, MEMORY, 63) + 1, 1]);
    row_stays_sound(place(2, OBJECT, 9), [27, 3, place(0, OBJECT, 27) + 1, 1]);
    row_stays_sound(place(2, OBJECT, 9), [38, 2, 0, 0]);
    // A domain without a PD.
    place_breaks(place(3, MEMORY, 9), [1, 3, first + 1, 2], 11);
    place_breaks(place(7, OBJECT, 63), [28, 31, 0, 0], 11);
    place_breaks(place(7, OBJECT, 255), [28, 31, 0, 0], 11);
    // No such page, port or object; a free object.
    place_breaks(spare, [64, 3, first + 1, 2], 11);
    place_breaks(place(2, IO, 9), [64, 1, 0, 0], 11);
    place_breaks(place(2, OBJECT, 9), [39, 1, 0, 0], 11);
    place_breaks(place(2, OBJECT, 9), [64, 1, 0, 0], 11);
    place_breaks(place(2, OBJECT, 9), [u32::MAX, 1, 0, 0], 11);
    // Permissions above the greatest, by space and by kind.
    place_breaks(spare, [1, 8, place(0, MEMORY, 1) + 1, 1], 11);
    place_breaks(place(2, IO, 9), [9, 2, place(0, IO, 9) + 1, 1], 11);
    for (object, greatest) in [(31, 31), (32, 7), (33, 3), (37, 1), (38, 3)] {
        row_stays_sound(place(2, OBJECT, 9), [object, greatest, 0, 0]);
        place_breaks(place(2, OBJECT, 9), [object, greatest + 1, 0, 0], 11);
        place_breaks(place(2, OBJECT, 9), [object, 1 << 31 | 1, 0, 0], 11);
    }
    // No parent: depth 0 and the object space only.
    place_breaks(place(2, OBJECT, 9), [38, 1, 0, 1], 11);
    place_breaks(spare, [1, 3, 0, 0], 11);
    place_breaks(place(2, IO, 9), [1, 1, 0, 0], 11);
    // A parent out of range, null, of another space or resource, itself.
    place_breaks(spare, [1, 3, PLACES, 2], 11);
    place_breaks(spare, [1, 3, PLACES + 1, 2], 11);
    place_breaks(spare, [1, 3, u32::MAX, 2], 11);
    place_breaks(spare, [1, 3, place(1, MEMORY, 0) + 1, 1], 11);
    place_breaks(place(2, IO, 1), [1, 1, first + 1, 2], 11);
    place_breaks(place(2, MEMORY, 60), [60, 1, place(0, IO, 60) + 1, 1], 11);
    place_breaks(spare, [2, 3, first + 1, 2], 11);
    place_breaks(spare, [1, 3, spare + 1, 2], 11);
    // More permissions than the parent, another depth.
    place_breaks(spare, [1, 7, first + 1, 2], 11);
    for depth in [0, 1, 3, 31, 32, 63, 64, u32::MAX] {
        place_breaks(spare, [1, 3, first + 1, depth], 11);
    }
    // The largest depth is not one less than 0.
    let mut world = furnished();
    world.set_row(place(2, MEMORY, 1), [1, 3, second + 1, 0]);
    world.set_row(second, [1, 3, first + 1, u32::MAX]);
    breaks(&world, 11, Location::Place(place(2, MEMORY, 1)));
}

/// Resource 4 of a space of domain 0, lent with all permissions through so many of the root's
/// selectors in turn.
fn line(space: u32, places: u32) -> World {
    let (first, permissions) = [(0, 7), (0, 1), (100, 3)][space as usize];
    let mut world = World::listed();
    let mut above = place(0, space, 4);
    for depth in 1..=places {
        let next = place(1, space, first + depth - 1);
        world.set_row(next, [4, permissions, above + 1, depth]);
        above = next;
    }
    world
}

#[test]
fn rule_12_depth() {
    for space in [MEMORY, IO, OBJECT] {
        for places in [31, 32, 62, 63] {
            assert_eq!(report(&line(space, places)), None);
        }
        let world = line(space, 64);
        let last = (0..PLACES).max_by_key(|&number| world.row(number)[3]);
        let last = last.expect("the last place of the line");
        breaks(&world, 12, Location::Place(last));
    }
    // The lowest place is reported, not the least deep.
    let mut world = line(OBJECT, 64);
    let last = place(1, OBJECT, 163);
    assert_eq!(world.row(last), [4, 3, last, 64]);
    world.set_row(last - 150, [4, 3, last + 1, 65]);
    breaks(&world, 12, Location::Place(last - 150));
}

#[test]
fn the_rules_of_places_reach_the_last_one() {
    let mut world = World::boot();
    for selector in 40..46 {
        world.does(CREATE_PD, ROOT_EC, &[selector, 32, 0]);
    }
    for number in DOMAIN_PLACES..PLACES {
        let (space, _) = within(number);
        let (origin, port) = (place(0, space, 4) + 1, place(0, IO, 4) + 1);
        let other = if space == IO { number + 1 } else { port };
        for (row, rule) in [
            ([4, 1, origin, 1], None),
            ([1, 0, 0, 0], Some(10)),
            ([0, 0, 0, 64], Some(10)),
            ([4, 8, origin, 1], Some(11)),
            ([4, 1, origin, 2], Some(11)),
            ([4, 1, other, 1], Some(11)),
        ] {
            let before = world.row(number);
            world.set_row(number, row);
            let at = Location::Place(number);
            let expected = rule.map(|rule| Damage { rule, at });
            assert_eq!(report(&world), expected, "place {number}: {row:?}");
            world.set_row(number, before);
        }
    }
}

#[test]
fn the_manuals_examples_of_breaches() {
    let mut cut = World::listed();
    cut.objects.pop();
    breaks(&cut, 1, Location::Nowhere);
    let place_examples = [
        (5, NULL, 2),
        (392, [5, 0, 0, 0], 10),
        (392, [0, 7, 0, 0], 11),
        (392, [0, 7, 2, 1], 11),
        (447, [63, 1, 63, 1], 11),
    ];
    for (number, row, rule) in place_examples {
        let mut world = World::listed();
        world.set_row(number, row);
        breaks(&world, rule, Location::Place(number));
    }
    let record_examples = [
        (10, [3, 29, 1, 1, 0], 3),
        (31, [5, 0, 0, 7, 0], 4),
        (31, [0, 9, 0, 0, 0], 5),
        (32, [5, 0, 0, 0, 0], 5),
        (31, [1, 3, 0, 0, 0], 6),
        (31, [2, 0, 0, 0, 0], 7),
        (31, [2, 1, 0, 256, 0], 7),
        (31, [3, 29, 0, 10, 0], 8),
        (31, [4, 28, 0, 0, 0], 9),
    ];
    for (number, record, rule) in record_examples {
        let mut world = World::listed();
        world.set_record(number, record);
        breaks(&world, rule, Location::Record(number));
    }
    let mut both = World::listed();
    both.set_row(5, NULL);
    both.set_record(29, [2, 1, 1, 0, 0]);
    breaks(&both, 2, Location::Record(29));
    let mut greatest = World::listed();
    greatest.set_record(31, [2, 1, 0, 255, 0]);
    assert_eq!(report(&greatest), None);
    let mut lost = World::listed();
    lost.set_row(446, NULL);
    lost.set_row(447, NULL);
    assert_eq!(report(&lost), None);
    let mut line = World::listed();
    line.set_row(384, [0, 7, 1, 1]);
    for step in 1..63 {
        line.set_row(384 + step, [0, 7, 384 + step, step + 1]);
    }
    assert_eq!(line.row(446)[3], 63);
    assert_eq!(report(&line), None);
    line.set_row(447, [0, 7, 447, 64]);
    breaks(&line, 12, Location::Place(447));
}

#[test]
fn tables_in_which_the_root_lost_its_pages_are_sound() {
    assert_eq!(report(&World::listed()), None);
    for lost in [&[446][..], &[447], &[446, 447]] {
        let mut world = World::listed();
        for &number in lost {
            world.set_row(number, NULL);
        }
        assert_eq!(report(&world), None, "without {lost:?}");
        world.does(LOOKUP, ROOT_EC, &[range(MEMORY, 63, 0, 0)]);
        world.does(CREATE_SM, ROOT_EC, &[40, 32, 0]);
        assert!(world.heirs(61).is_empty());
    }
}

#[test]
fn the_roots_pages_are_tested_like_other_places() {
    let examples = [
        // Other permissions, or the other page.
        (446, [62, 7, 63, 1], None),
        (446, [62, 2, 63, 1], None),
        (446, [63, 7, 64, 1], None),
        (447, [63, 7, 64, 1], None),
        (447, [62, 3, 63, 1], None),
        // A null place with another word.
        (446, [0, 0, 63, 1], Some(10)),
        (447, [63, 0, 0, 0], Some(10)),
        // No parent, or another: a port, the place itself, the other page, a null place.
        (446, [62, 3, 0, 0], Some(11)),
        (447, [63, 1, 0, 1], Some(11)),
        (447, [63, 1, 128, 1], Some(11)),
        (447, [63, 1, 448, 1], Some(11)),
        (446, [62, 1, 448, 2], Some(11)),
        (446, [62, 3, 64, 1], Some(11)),
        (447, [63, 1, 446, 1], Some(11)),
        // Another depth.
        (446, [62, 3, 63, 0], Some(11)),
        (447, [63, 1, 64, 2], Some(11)),
        // A permission that no page has.
        (447, [63, 9, 64, 1], Some(11)),
    ];
    for (number, row, rule) in examples {
        let mut world = World::listed();
        world.set_row(number, row);
        let at = Location::Place(number);
        let expected = rule.map(|rule| Damage { rule, at });
        assert_eq!(report(&world), expected, "place {number}: {row:?}");
    }
}

#[test]
fn the_first_rule_is_reported_and_the_lowest_that_breaks_it() {
    let mut world = furnished();
    world.set_row(3071, [1, 0, 0, 0]);
    breaks(&world, 10, Location::Place(3071));
    world.set_row(3000, [1, 0, 0, 0]);
    world.set_row(500, [1, 1, 0, 9]);
    breaks(&world, 10, Location::Place(3000));
    world.set_record(36, [4, 1, 0, 0, 0]);
    world.set_record(33, [4, 2, 0, 0, 0]);
    breaks(&world, 9, Location::Record(33));
    world.set_record(37, [3, 1, 1, 1, 0]);
    breaks(&world, 8, Location::Record(37));
    world.set_record(32, [2, 2, 9, 0, 0]);
    breaks(&world, 7, Location::Record(32));
    world.set_record(31, [1, 3, 0, 0, 0]);
    breaks(&world, 6, Location::Record(31));
    world.set_record(60, [5, 0, 0, 0, 0]);
    breaks(&world, 5, Location::Record(60));
    world.set_record(61, [5, 0, 0, 0, 7]);
    breaks(&world, 4, Location::Record(61));
    world.set_record(20, [0; 5]);
    breaks(&world, 3, Location::Record(20));
    world.set_row(4, NULL);
    breaks(&world, 2, Location::Place(4));
    world.places.pop();
    breaks(&world, 1, Location::Nowhere);
}

/// Sound tables with much in them.
fn grown(kind: Kind, seed: u64) -> World {
    let bytes = generator::journal(kind, seed, 300);
    let mut replay = Replay::new(&bytes);
    while let Step::Ran(..) = replay.step() {}
    World {
        places: replay.machine.places.to_vec(),
        objects: replay.machine.objects.to_vec(),
    }
}

#[test]
fn the_fused_test_agrees_with_the_report() {
    let mut random = Random::new(2024);
    let mut seen = [0u32; 13];
    for seed in 0..24 {
        let world = grown(Kind::ALL[seed as usize % 3], seed);
        assert_eq!(report(&world), None);
        for _ in 0..1500 {
            let mut world = world.clone();
            // One or two words changed: by one, in a bit, to a small number, to another
            // word of the table; or a whole place or record moved.
            for _ in 0..1 + random.below(2) {
                spoil(&mut world, &mut random);
            }
            let rule = report(&world).map_or(0, |damage| damage.rule);
            seen[rule as usize] += 1;
        }
    }
    for (rule, count) in seen.into_iter().enumerate() {
        assert!(rule == 1 || count > 0, "rule {rule} was never met");
    }
}

fn spoil(world: &mut World, random: &mut Random) {
    let (words, width) = if random.percent(70) {
        (&mut world.places, 4)
    } else {
        (&mut world.objects, 5)
    };
    let rows = words.len() / width;
    let pick = |random: &mut Random| random.below(rows as u32) as usize * width;
    let mut row = pick(random);
    // Places that are in use are of more interest.
    for _ in 0..20 {
        if words[row + 1] == 0 || row < DOMAIN_PLACES as usize * 4 && width == 4 {
            row = pick(random);
        }
    }
    let at = row + random.below(width as u32) as usize;
    match random.below(8) {
        0 => words[at] = words[at].wrapping_add(1),
        1 => words[at] = words[at].wrapping_sub(1),
        2 => words[at] ^= 1 << random.below(32),
        3 => {
            let limit = if random.percent(50) { 70 } else { 300 };
            words[at] = random.below(limit);
        }
        4 => {
            let from = pick(random);
            words.copy_within(from..from + width, row);
        }
        5 => words[row..row + width].fill(0),
        6 if width == 4 => {
            // One more child of a deep place, in the same space.
            let deepest = (0..rows)
                .map(|row| row * 4)
                .max_by_key(|row| words[row + 3]);
            let above = if random.percent(50) {
                row
            } else {
                deepest.unwrap_or(row)
            };
            let number = above as u32 / 4;
            let (space, _) = within(number);
            let selector = random.below(SELECTORS[space as usize]);
            let child = place(number / DOMAIN_PLACES, space, selector) as usize * 4;
            let [resource, permissions, depth] = [0, 1, 3].map(|word| words[above + word]);
            words[child..child + 4].copy_from_slice(&[
                resource,
                permissions,
                number + 1,
                depth.wrapping_add(1),
            ]);
        }
        _ => {
            // A depth and its parent's row together, so that depth alone may be wrong.
            let rise = random.below(80);
            words[row + 3] = words[row + 3].wrapping_add(rise);
            if width == 4 {
                let parent = words[row + 2].wrapping_sub(1) as usize * 4;
                if let Some(word) = words.get_mut(parent.wrapping_add(3)) {
                    *word = word.wrapping_add(rise);
                }
            }
        }
    }
}
