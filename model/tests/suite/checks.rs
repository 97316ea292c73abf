//! Each status of each call, and the order of the checks where two apply.

use model::tables::Tables;
use model::Status;

use crate::world::*;

const NO_DESCRIPTOR: u32 = 0;

/// Words of type 0 with other bits set are null descriptors too.
const ODD_NULL: u32 = 0xffff_fffc;
const MALFORMED: u32 = range(OBJECT, 4, 3, 31);

#[test]
fn status_numbers() {
    let numbers = [
        (Status::Success, 0),
        (Status::ComTim, 1),
        (Status::BadHyp, 3),
        (Status::BadCap, 4),
        (Status::BadPar, 5),
        (Status::BadCpu, 7),
        (Status::NoRoom, 16),
        (Status::Damaged, 17),
        (Status::BadCaller, 18),
        (Status::Short, 19),
    ];
    for (status, number) in numbers {
        assert_eq!(status.number(), number);
    }
}

#[test]
fn boot_fills_the_tables() {
    let world = World::boot();
    assert_eq!((world.places.len(), world.objects.len()), (12_288, 320));
    for number in 0..PLACES {
        assert_eq!(world.row(number), listed_row(number), "place {number}");
    }
    for number in 0..64 {
        let record = listed_record(number);
        assert_eq!(world.record(number), record, "record {number}");
    }
    let live = (0..PLACES).filter(|&number| world.row(number)[1] != 0);
    assert_eq!(live.count(), 64 + 64 + 28 + 2 + 3);
}

#[test]
fn boot_overwrites_and_refuses_other_lengths() {
    let mut world = World::boot();
    world.places.fill(77);
    world.objects.fill(88);
    let reply = model::boot(&mut world.places, &mut world.objects);
    assert_eq!((reply.status, reply.answer), (Status::Success, 0));
    assert!(world == World::listed());
    for (places, objects) in [
        (12_287, 320),
        (12_292, 320),
        (6144, 320),
        (12_288, 319),
        (12_288, 325),
        (0, 0),
        (320, 12_288),
    ] {
        let (mut place_words, mut object_words) = (vec![7; places], vec![9; objects]);
        let reply = model::boot(&mut place_words, &mut object_words);
        assert_eq!((reply.status, reply.answer), (Status::Damaged, 0));
        assert!(place_words.iter().all(|&word| word == 7));
        assert!(object_words.iter().all(|&word| word == 9));
    }
}

#[test]
fn damage_comes_before_number_before_caller() {
    let mut world = World::boot();
    for number in [1, 9, 10, 12, 128, u32::MAX] {
        world.refuses(number, ROOT_EC, &[], Status::BadHyp);
        world.refuses(number, 64, &[], Status::BadHyp);
    }
    for number in [
        CALL, CREATE_PD, CREATE_EC, CREATE_SC, CREATE_PT, CREATE_SM, REVOKE, LOOKUP, SM_CTRL,
    ] {
        // No number of a record, other kinds, a free record.
        for caller in [64, u32::MAX, 0, 4, 28, 30, 31, 63] {
            world.refuses(number, caller, &[u32::MAX; 6], Status::BadCaller);
        }
    }
    world.set_record(63, [0, 0, 0, 0, 1]);
    world.refuses(1, 64, &[], Status::Damaged);
    world.refuses(LOOKUP, ROOT_EC, &[0], Status::Damaged);
    world.places.pop();
    world.refuses(LOOKUP, ROOT_EC, &[0], Status::Damaged);
}

#[test]
fn creation_stores_objects() {
    let mut world = World::boot();
    world.does(CREATE_PD, ROOT_EC, &[40, 32, NO_DESCRIPTOR]);
    assert_eq!(world.record(31), [1, 2, 0, 0, 0]);
    assert_eq!(world.row(place(1, OBJECT, 40)), [31, 31, 0, 0]);
    world.does(CREATE_EC, ROOT_EC, &[41, 40, 3, 256 + 73]);
    assert_eq!(world.record(32), [2, 2, 3, 73, 0]);
    assert_eq!(world.row(place(1, OBJECT, 41)), [32, 7, 0, 0]);
    world.does(CREATE_SC, ROOT_EC, &[42, 40, 41, 0xabcd_ef12]);
    assert_eq!(world.record(33), [3, 32, 0x12, 0xabcde, 0]);
    assert_eq!(world.row(place(1, OBJECT, 42)), [33, 1, 0, 0]);
    world.does(
        CREATE_PT,
        ROOT_EC,
        &[43, 40, 41, 0xffff_0000, 0xffff_0001, 0xffff_0002],
    );
    assert_eq!(
        world.record(34),
        [4, 32, 0xffff_0000, 0xffff_0001, 0xffff_0002]
    );
    assert_eq!(world.row(place(1, OBJECT, 43)), [34, 3, 0, 0]);
    world.does(CREATE_SM, ROOT_EC, &[44, 40, u32::MAX]);
    assert_eq!(world.record(35), [5, u32::MAX, 0, 0, 0]);
    assert_eq!(world.row(place(1, OBJECT, 44)), [35, 3, 0, 0]);
}

#[test]
fn selector_words_wrap_at_256() {
    let mut world = World::boot();
    let mut expected = world.clone();
    // The new selector's word with its selector, and a word for the PD's.
    let words = [
        (40, 40, 32),
        (64 + 45, 109, 256 + 32),
        (63, 63, 32 + (255 << 8)),
        (64, 64, u32::MAX - 223),
        (127, 127, 32),
        (128, 128, 32),
        (256 + 45, 45, 512 + 32),
        (u32::MAX, 255, 32),
        (256, 0, 32),
        (4_294_967_080 + 1, 41, 32),
    ];
    for (number, (new, selector, pd)) in (31..).zip(words) {
        world.does(CREATE_SM, ROOT_EC, &[new, pd, 5]);
        expected.set_row(place(1, OBJECT, selector), [number, 3, 0, 0]);
        expected.set_record(number, [5, 5, 0, 0, 0]);
        assert!(world == expected, "new selector {new}, PD {pd}");
    }
    // The manual's three words for one selector, which is taken.
    for new in [40, 296, 4_294_967_080] {
        world.refuses(CREATE_SM, ROOT_EC, &[new, 32, 0], Status::BadCap);
    }
    // Words that would name the root's PD if they wrapped at 64 or at 128.
    for pd in [96, 160, 224] {
        world.refuses(CREATE_SM, ROOT_EC, &[50, pd, 0], Status::BadCap);
    }
}

#[test]
fn event_bases_wrap_at_256() {
    for (word, event_base) in [
        (0, 0),
        (63, 63),
        (64, 64),
        (127, 127),
        (128, 128),
        (255, 255),
        (256, 0),
        (256 + 100, 100),
        (1 << 31 | 200, 200),
        (u32::MAX, 255),
    ] {
        let mut world = World::boot();
        world.does(CREATE_EC, ROOT_EC, &[40, 32, 0, word]);
        assert_eq!(world.record(31), [2, 1, 0, event_base, 0]);
        assert!(model::is_sound(&world.places, &world.objects));
    }
}

#[test]
fn every_object_selector_is_named() {
    // A portal to the root's second EC, then a semaphore, at each selector that is null and
    // not just beside another portal.
    for selector in (0..256).filter(|selector| !(32..42).contains(selector)) {
        let mut world = World::partners();
        world.does(CREATE_PT, ROOT_EC, &[selector, 32, 38, 0, 0, 0]);
        assert_eq!(world.row(place(1, OBJECT, selector)), [37, 3, 0, 0]);
        let (empty, block) = (message(0, &[]), windows(0, 0));
        world.sends(ROOT_EC, selector, empty, block);
        world.sends(ROOT_EC, 256 + selector, empty, block);
        let one = range(OBJECT, selector, 0, 31);
        assert_eq!(
            world.does(LOOKUP, ROOT_EC, &[one]),
            range(OBJECT, selector, 0, 3)
        );
        assert_eq!(world.gives(TO_CHILD, one, one, hot(0)), 1);
        let heir = place(2, OBJECT, selector);
        assert_eq!(world.row(heir), [37, 3, place(1, OBJECT, selector) + 1, 1]);
        assert_eq!(world.heirs(place(1, OBJECT, selector)), [heir]);
        world.does(REVOKE, ROOT_EC, &[one, 1]);
        assert_eq!(world.row(heir), NULL);
        world.refuses_call(ROOT_EC, selector, &empty, &block, Status::BadCap);
        world.does(CREATE_SM, ROOT_EC, &[selector, 32, 0]);
        world.does(SM_CTRL, ROOT_EC, &[selector, 0]);
        world.does(SM_CTRL, ROOT_EC, &[512 + selector, 1]);
        world.refuses(SM_CTRL, ROOT_EC, &[selector, 1], Status::ComTim);
    }
}

/// Leaves the root's PD capability with these permissions alone.
fn with_pd_permissions(permissions: u32) -> World {
    let mut world = World::boot();
    world.does(
        REVOKE,
        ROOT_EC,
        &[range(OBJECT, 32, 0, !permissions & 31), 1],
    );
    assert_eq!(world.row(place(1, OBJECT, 32))[1], permissions);
    world
}

#[test]
fn each_creation_needs_its_own_bit() {
    let creations: [(u32, &[u32]); 5] = [
        (CREATE_PD, &[40, 32, 0]),
        (CREATE_EC, &[40, 32, 0, 0]),
        (CREATE_SC, &[40, 32, 33, 0x1001]),
        (CREATE_PT, &[40, 32, 33, 0, 0, 0]),
        (CREATE_SM, &[40, 32, 0]),
    ];
    for (bit, (number, arguments)) in creations.into_iter().enumerate() {
        with_pd_permissions(1 << bit).does(number, ROOT_EC, arguments);
        with_pd_permissions(31 & !(1 << bit)).refuses(number, ROOT_EC, arguments, Status::BadCap);
        // A taken place, a null PD selector, an object that is no PD.
        for (word, value) in [(0, 33), (1, 40), (1, 33), (1, 34)] {
            let mut spoilt = arguments.to_vec();
            spoilt[word] = value;
            World::boot().refuses(number, ROOT_EC, &spoilt, Status::BadCap);
        }
    }
}

#[test]
fn binding_needs_its_bit() {
    for (number, last, bit) in [(CREATE_SC, 0x1001, 2), (CREATE_PT, 0, 4)] {
        let arguments = [40, 32, 33, last];
        for permissions in 1..8 {
            let mut world = World::boot();
            // At boot all are there, and a mask without bits is refused.
            if permissions != 7 {
                let others = range(OBJECT, 33, 0, 7 & !permissions);
                world.does(REVOKE, ROOT_EC, &[others, 1]);
            }
            assert_eq!(world.row(place(1, OBJECT, 33))[1], permissions);
            if permissions & bit != 0 {
                world.does(number, ROOT_EC, &arguments);
            } else {
                world.refuses(number, ROOT_EC, &arguments, Status::BadCap);
            }
        }
        // A null EC selector and an object that is no EC.
        for ec in [40, 41, 32, 34] {
            World::boot().refuses(number, ROOT_EC, &[40, 32, ec, last], Status::BadCap);
        }
    }
}

#[test]
fn creation_parameters_have_bounds() {
    let mut world = World::boot();
    for cpu in [4, 5, u32::MAX] {
        world.refuses(CREATE_EC, ROOT_EC, &[40, 32, cpu, 0], Status::BadCpu);
    }
    // No priority, no quantum; the bits between them do not count.
    for qpd in [0, 1, 0xfff, 0x1000, 0x1f00, 0xffff_f000, 0xffff_ff00] {
        world.refuses(CREATE_SC, ROOT_EC, &[40, 32, 33, qpd], Status::BadPar);
    }
    for initial in [
        MALFORMED,
        range(OBJECT, 0, 9, 31),
        range(OBJECT, 64, 8, 31),
        range(OBJECT, 64, 7, 31),
        range(MEMORY, 0, 0, 7),
        range(IO, 0, 0, 1),
        range(MEMORY, 64, 0, 7),
    ] {
        world.refuses(CREATE_PD, ROOT_EC, &[40, 32, initial], Status::BadPar);
    }
    world
        .clone()
        .does(CREATE_SC, ROOT_EC, &[40, 32, 33, 0x1001]);
    world
        .clone()
        .does(CREATE_SC, ROOT_EC, &[40, 32, 33, 0xffff_f0ff]);
    world.clone().does(CREATE_PD, ROOT_EC, &[40, 32, ODD_NULL]);
    for (base, order) in [(64, 6), (128, 7), (0, 8), (256, 8), (384, 7)] {
        let initial = range(OBJECT, base, order, 31);
        world.clone().does(CREATE_PD, ROOT_EC, &[40, 32, initial]);
    }
}

/// The root's tables with all 64 records in use.
fn full() -> World {
    let mut world = World::boot();
    for selector in (0..32).chain([63]) {
        world.does(CREATE_SM, ROOT_EC, &[selector, 32, 0]);
    }
    assert_eq!(world.record(63)[0], 5);
    world
}

#[test]
fn records_and_domains_run_out() {
    let mut world = full();
    world.refuses(CREATE_PD, ROOT_EC, &[40, 32, 0], Status::NoRoom);
    world.refuses(CREATE_EC, ROOT_EC, &[40, 32, 0, 0], Status::NoRoom);
    world.refuses(CREATE_SC, ROOT_EC, &[40, 32, 33, 0x1001], Status::NoRoom);
    world.refuses(CREATE_PT, ROOT_EC, &[40, 32, 33, 0, 0, 0], Status::NoRoom);
    world.refuses(CREATE_SM, ROOT_EC, &[40, 32, 0], Status::NoRoom);
    let mut world = World::boot();
    for domain in 2..8 {
        world.does(CREATE_PD, ROOT_EC, &[40 + domain, 32, 0]);
        assert_eq!(world.record(29 + domain), [1, domain, 0, 0, 0]);
    }
    world.refuses(CREATE_PD, ROOT_EC, &[40, 32, 0], Status::NoRoom);
    world.does(CREATE_SM, ROOT_EC, &[40, 32, 0]);
}

#[test]
fn creation_checks_in_order() {
    let mut world = full();
    // Capabilities before the CPU and the parameters, these before room.
    world.refuses(CREATE_EC, ROOT_EC, &[33, 32, 9, 0], Status::BadCap);
    world.refuses(CREATE_EC, ROOT_EC, &[40, 33, 9, 0], Status::BadCap);
    world.refuses(CREATE_EC, ROOT_EC, &[40, 32, 9, 0], Status::BadCpu);
    world.refuses(CREATE_SC, ROOT_EC, &[40, 32, 32, 0], Status::BadCap);
    world.refuses(CREATE_SC, ROOT_EC, &[40, 33, 33, 0], Status::BadCap);
    world.refuses(CREATE_SC, ROOT_EC, &[40, 32, 33, 0], Status::BadPar);
    world.refuses(CREATE_PD, ROOT_EC, &[33, 32, MALFORMED], Status::BadCap);
    world.refuses(CREATE_PD, ROOT_EC, &[40, 33, MALFORMED], Status::BadCap);
    world.refuses(CREATE_PD, ROOT_EC, &[40, 32, MALFORMED], Status::BadPar);
    world.refuses(
        CREATE_PD,
        ROOT_EC,
        &[40, 32, range(MEMORY, 0, 0, 7)],
        Status::BadPar,
    );
    world.refuses(CREATE_PT, ROOT_EC, &[40, 32, 32, 0, 0, 0], Status::BadCap);
}

#[test]
fn a_new_domain_gets_its_initial_range_first() {
    let mut world = World::boot();
    // The new selector lies inside the range and is not handed on.
    let answer = world.does(CREATE_PD, ROOT_EC, &[35, 32, range(OBJECT, 32, 2, 3)]);
    assert_eq!(answer, 0);
    assert_eq!(
        world.row(place(2, OBJECT, 32)),
        [28, 3, place(1, OBJECT, 32) + 1, 1]
    );
    assert_eq!(
        world.row(place(2, OBJECT, 33)),
        [29, 3, place(1, OBJECT, 33) + 1, 1]
    );
    assert_eq!(
        world.row(place(2, OBJECT, 34)),
        [30, 1, place(1, OBJECT, 34) + 1, 1]
    );
    assert_eq!(world.row(place(2, OBJECT, 35)), NULL);
    assert_eq!(world.row(place(1, OBJECT, 35)), [31, 31, 0, 0]);
    // A range that fills nothing still succeeds, by its mask or by null places.
    world.does(CREATE_PD, ROOT_EC, &[36, 32, range(OBJECT, 32, 0, 0)]);
    world.does(CREATE_PD, ROOT_EC, &[37, 32, range(OBJECT, 0, 4, 31)]);
    for selector in 0..256 {
        assert_eq!(world.row(place(3, OBJECT, selector)), NULL);
        assert_eq!(world.row(place(4, OBJECT, selector)), NULL);
    }
    // A wrapped base goes to the wrapped selectors.
    world.does(
        CREATE_PD,
        ROOT_EC,
        &[38, 32, range(OBJECT, 256 + 33, 0, 31)],
    );
    assert_eq!(
        world.row(place(5, OBJECT, 33)),
        [29, 7, place(1, OBJECT, 33) + 1, 1]
    );
}

#[test]
fn a_new_domain_can_get_all_objects_of_another() {
    let mut world = World::boot();
    for selector in [0, 63, 64, 127, 128, 255] {
        world.does(CREATE_SM, ROOT_EC, &[selector, 32, 0]);
    }
    for (order, base) in [(8, 0), (7, 0), (7, 128)] {
        let mut after = world.clone();
        after.does(
            CREATE_PD,
            ROOT_EC,
            &[200, 32, range(OBJECT, base, order, 31)],
        );
        for selector in 0..256 {
            let source = place(1, OBJECT, selector);
            let [resource, permissions, ..] = world.row(source);
            let is_given = permissions != 0 && selector >> order == base >> order;
            let row = match is_given {
                true => [resource, permissions, source + 1, 1],
                false => NULL,
            };
            assert_eq!(after.row(place(2, OBJECT, selector)), row);
        }
        assert_eq!(after.row(place(1, OBJECT, 200)), [37, 31, 0, 0]);
    }
}

#[test]
fn a_creation_works_in_the_callers_domain() {
    let mut world = World::partners();
    let pd = range(OBJECT, 32, 0, 31);
    assert_eq!(world.gives(TO_CHILD, pd, pd, hot(0)), 1);
    // The child creates an EC with the root's PD: its place is the child's, its domain the root's.
    world.does(CREATE_EC, CHILD_EC, &[50, 32, 1, 0]);
    assert_eq!(world.row(place(2, OBJECT, 50)), [37, 7, 0, 0]);
    assert_eq!(world.row(place(1, OBJECT, 50)), NULL);
    assert_eq!(world.record(37), [2, 1, 1, 0, 0]);
}

#[test]
fn revoke_checks() {
    let mut world = World::partners();
    for own in [2, 3, u32::MAX] {
        for descriptor in [NO_DESCRIPTOR, ODD_NULL, MALFORMED, range(OBJECT, 32, 0, 31)] {
            world.refuses(REVOKE, ROOT_EC, &[descriptor, own], Status::BadPar);
        }
    }
    for own in [0, 1] {
        for descriptor in [MALFORMED, range(MEMORY, 64, 0, 7), range(IO, 0, 7, 1)] {
            world.refuses(REVOKE, ROOT_EC, &[descriptor, own], Status::BadPar);
        }
        let before = world.clone();
        // The root's SC has no permission but 1, none of its pages may be executed, and its pages
        // 0 to 31 are null.
        for descriptor in [
            NO_DESCRIPTOR,
            ODD_NULL,
            range(OBJECT, 34, 0, 30),
            range(MEMORY, 0, 6, 28),
            range(MEMORY, 0, 5, 31),
        ] {
            assert_eq!(world.does(REVOKE, ROOT_EC, &[descriptor, own]), 0);
            assert!(world == before);
        }
    }
}

/// The masks, by space, that have no permission of any capability there.
const REFUSED_MASKS: [&[u32]; 3] = [
    &[0, 8, 16, 24],
    &[0, 2, 4, 6, 8, 10, 12, 14, 16, 18, 20, 22, 24, 26, 28, 30],
    &[0],
];

/// What a REVOKE of a range leaves where no place has an ancestor in it but its parent.
fn revoked(world: &World, domain: u32, range: (u32, u32, u32), mask: u32, own: u32) -> World {
    let (space, base, order) = range;
    let start = place(domain, space, base);
    let holds = |place: u32| (start..start + (1 << order)).contains(&place);
    let mut after = world.clone();
    for number in 0..PLACES {
        let [resource, permissions, parent, depth] = world.row(number);
        if (parent > 0 && holds(parent - 1)) || (own == 1 && holds(number)) {
            let row = match permissions & !mask {
                0 => NULL,
                left => [resource, left, parent, depth],
            };
            after.set_row(number, row);
        }
    }
    after
}

#[test]
fn revoke_refuses_a_mask_without_a_permission_of_its_space() {
    let world = World::lenders();
    // Live places, null ones, and all of a space.
    let ranges = [
        (MEMORY, 8, 0),
        (MEMORY, 20, 2),
        (MEMORY, 0, 6),
        (IO, 8, 0),
        (IO, 63, 0),
        (IO, 0, 6),
        (OBJECT, 32, 0),
        (OBJECT, 40, 0),
        (OBJECT, 60, 1),
        (OBJECT, 0, 6),
        (OBJECT, 128, 7),
        (OBJECT, 0, 8),
    ];
    for (ec, domain) in [(ROOT_EC, 1), (CHILD_EC, 2)] {
        for (space, base, order) in ranges {
            for (mask, own) in (0..32).flat_map(|mask| [(mask, 0), (mask, 1)]) {
                let arguments = [range(space, base, order, mask), own];
                let mut after = world.clone();
                if REFUSED_MASKS[space as usize].contains(&mask) {
                    after.refuses(REVOKE, ec, &arguments, Status::BadPar);
                } else {
                    assert_eq!(after.does(REVOKE, ec, &arguments), 0);
                    let expected = revoked(&world, domain, (space, base, order), mask, own);
                    assert!(after == expected, "{ec} revokes {arguments:?}");
                }
            }
        }
    }
}

#[test]
fn revoke_checks_a_mask_after_the_descriptor() {
    let mut world = World::lenders();
    let before = world.clone();
    for mask in 0..32 {
        let null = [0, 1, 7, 1 << 13].map(|others| others << 7 | mask << 2);
        let malformed = [
            range(MEMORY, 8, 7, mask),
            range(MEMORY, 10, 2, mask),
            range(MEMORY, 64, 0, mask),
            range(IO, 8, 31, mask),
            range(IO, 7, 1, mask),
            range(IO, 64, 6, mask),
            range(OBJECT, 0, 9, mask),
            range(OBJECT, 128, 8, mask),
            range(OBJECT, 40, 4, mask),
        ];
        for own in [0, 1] {
            for descriptor in null {
                assert_eq!(world.does(REVOKE, ROOT_EC, &[descriptor, own]), 0);
                assert!(world == before);
            }
            for descriptor in malformed {
                world.refuses(REVOKE, ROOT_EC, &[descriptor, own], Status::BadPar);
            }
        }
        for descriptor in null.into_iter().chain(malformed) {
            world.refuses(REVOKE, ROOT_EC, &[descriptor, 2], Status::BadPar);
        }
    }
    // Caller and tables come first.
    for descriptor in [MEMORY, IO, OBJECT].map(|space| range(space, 8, 0, 0)) {
        world.refuses(REVOKE, ROOT_EC, &[descriptor, 0], Status::BadPar);
        world.refuses(REVOKE, 28, &[descriptor, 0], Status::BadCaller);
        let mut damaged = world.clone();
        damaged.set_record(63, [0, 0, 0, 0, 1]);
        damaged.refuses(REVOKE, ROOT_EC, &[descriptor, 0], Status::Damaged);
    }
}

#[test]
fn the_census_is_the_same_after_refused_revocations() {
    let mut world = World::lenders();
    for (space, selector) in LOANS {
        let (origin, heir) = (place(1, space, selector), place(2, space, selector));
        for own in [0, 1] {
            for &mask in REFUSED_MASKS[space as usize] {
                let arguments = [range(space, selector, 0, mask), own];
                world.refuses(REVOKE, ROOT_EC, &arguments, Status::BadPar);
                assert_eq!(world.heirs(origin), [heir]);
            }
        }
        let mut expected = world.clone();
        expected.set_row(heir, NULL);
        world.does(REVOKE, ROOT_EC, &[range(space, selector, 0, 31), 0]);
        assert!(world == expected);
        assert!(world.heirs(origin).is_empty());
    }
}

#[test]
fn revoke_reaches_other_domains_and_only_descendants() {
    let mut world = World::partners();
    let page = range(MEMORY, 7, 0, 31);
    let child = place(2, MEMORY, 7);
    assert_eq!(
        world.gives(TO_CHILD, page, page, hot(0) | FROM_HYPERVISOR),
        1
    );
    assert_eq!(
        world.gives(TO_ROOT_2, page, page, hot(0) | FROM_HYPERVISOR),
        1
    );
    // The root's page 7 and the child's share a parent; neither descends from the other.
    let before = world.row(child);
    world.does(REVOKE, ROOT_EC, &[range(MEMORY, 7, 0, 31), 1]);
    assert_eq!(world.row(place(1, MEMORY, 7)), NULL);
    assert_eq!(world.row(child), before);
    // The child's portal came from the root's.
    assert_eq!(world.row(place(2, OBJECT, TO_ROOT))[1], 3);
    world.does(REVOKE, ROOT_EC, &[range(OBJECT, TO_ROOT, 0, 2), 0]);
    assert_eq!(world.row(place(2, OBJECT, TO_ROOT))[1], 1);
    assert_eq!(world.row(place(1, OBJECT, TO_ROOT))[1], 3);
}

#[test]
fn a_revoked_place_can_be_filled_again() {
    let mut world = World::partners();
    let page = range(MEMORY, 7, 0, 31);
    assert_eq!(
        world.gives(TO_ROOT_2, page, page, hot(0) | FROM_HYPERVISOR),
        1
    );
    assert_eq!(world.gives(TO_CHILD, page, page, hot(0)), 1);
    world.does(REVOKE, ROOT_EC, &[page, 0]);
    assert_eq!(world.row(place(2, MEMORY, 7)), NULL);
    assert_eq!(world.gives(TO_CHILD, page, page, hot(0)), 1);
    assert_eq!(world.heirs(place(1, MEMORY, 7)), [place(2, MEMORY, 7)]);
}

#[test]
fn lookup_checks() {
    let mut world = World::partners();
    for descriptor in [
        MALFORMED,
        range(MEMORY, 64, 0, 7),
        range(IO, 0, 7, 1),
        range(OBJECT, 33, 1, 0),
        range(OBJECT, 0, 9, 0),
        range(OBJECT, 192, 7, 0),
    ] {
        world.refuses(LOOKUP, ROOT_EC, &[descriptor], Status::BadPar);
    }
    for descriptor in [
        NO_DESCRIPTOR,
        ODD_NULL,
        range(MEMORY, 5, 0, 7),
        range(OBJECT, 63, 0, 31),
        range(OBJECT, 96, 0, 31),
        range(OBJECT, 255, 0, 31),
        range(OBJECT, 0, 8, 31),
    ] {
        assert_eq!(world.does(LOOKUP, ROOT_EC, &[descriptor]), 0);
    }
    // The base and the type count; order and mask do not; object bases wrap.
    for descriptor in [
        range(OBJECT, 32, 0, 0),
        range(OBJECT, 32, 5, 9),
        range(OBJECT, 256 + 32, 5, 31),
        range(OBJECT, 0xfff20, 0, 31),
    ] {
        assert_eq!(
            world.does(LOOKUP, ROOT_EC, &[descriptor]),
            range(OBJECT, 32, 0, 31)
        );
    }
}

#[test]
fn lookup_joins_equal_neighbours() {
    let mut world = World::partners();
    let look =
        |world: &mut World, selector| world.does(LOOKUP, ROOT_EC, &[range(MEMORY, selector, 0, 0)]);
    // All pages, once the root has given up its two: the whole space is one range.
    let all = range(MEMORY, 0, 6, 31);
    world.does(REVOKE, ROOT_EC, &[all, 1]);
    assert_eq!(
        world.gives(TO_ROOT_2, all, all, hot(0) | FROM_HYPERVISOR),
        64
    );
    for selector in [0, 17, 63] {
        assert_eq!(look(&mut world, selector), range(MEMORY, 0, 6, 7));
    }
    // One page with fewer permissions splits it.
    world.does(REVOKE, ROOT_EC, &[range(MEMORY, 21, 0, 4), 1]);
    assert_eq!(look(&mut world, 21), range(MEMORY, 21, 0, 3));
    assert_eq!(look(&mut world, 20), range(MEMORY, 20, 0, 7));
    assert_eq!(look(&mut world, 22), range(MEMORY, 22, 1, 7));
    assert_eq!(look(&mut world, 16), range(MEMORY, 16, 2, 7));
    assert_eq!(look(&mut world, 31), range(MEMORY, 24, 3, 7));
    assert_eq!(look(&mut world, 9), range(MEMORY, 0, 4, 7));
    assert_eq!(look(&mut world, 40), range(MEMORY, 32, 5, 7));
    // Other resources than the next do not join: the child's pages 8, 9 are pages 1, 0.
    let mut world = World::partners();
    for (page, selector) in [(1, 8), (0, 9), (4, 10), (5, 11)] {
        let (item, window) = (range(MEMORY, page, 0, 7), range(MEMORY, selector, 0, 0));
        assert_eq!(
            world.gives(TO_CHILD, item, window, hot(0) | FROM_HYPERVISOR),
            1
        );
    }
    let look = |world: &mut World, selector| {
        world.does(LOOKUP, CHILD_EC, &[range(MEMORY, selector, 0, 0)])
    };
    assert_eq!(look(&mut world, 8), range(MEMORY, 8, 0, 7));
    assert_eq!(look(&mut world, 9), range(MEMORY, 9, 0, 7));
    assert_eq!(look(&mut world, 10), range(MEMORY, 10, 1, 7));
    assert_eq!(look(&mut world, 11), range(MEMORY, 10, 1, 7));
}

/// What LOOKUP finds at a selector of the root, without the test of damage.
fn searched(world: &mut World, space: u32, selector: u32) -> u32 {
    let tables = Tables::sized(&mut world.places, &mut world.objects);
    let tables = tables.expect("tables of the right lengths");
    let arguments = [range(space, selector, 0, 0), 0, 0, 0, 0, 0];
    let reply = model::serve(LOOKUP, ROOT_EC, arguments, tables, &[], &mut []);
    assert_eq!(reply.status, Status::Success);
    reply.answer
}

#[test]
fn lookup_searches_to_the_order_of_the_whole_space() {
    // The tables are not sound: all places of the root, and the places around them, have
    // resources that rise by one from each to the next.
    let mut world = World::boot();
    for number in 0..PLACES {
        world.set_row(number, [number, 1, 0, 0]);
    }
    for (space, selectors) in [(MEMORY, 64), (IO, 64), (OBJECT, 256)] {
        let all = range(space, 0, ORDERS[space as usize], 1);
        for selector in 0..selectors {
            assert_eq!(searched(&mut world, space, selector), all);
        }
    }
    // A hole halves the range around every other selector, as often as needed.
    world.set_row(place(1, OBJECT, 200), NULL);
    for (selector, base, order) in [
        (0, 0, 7),
        (127, 0, 7),
        (128, 128, 6),
        (191, 128, 6),
        (192, 192, 3),
        (201, 201, 0),
        (202, 202, 1),
        (204, 204, 2),
        (255, 224, 5),
    ] {
        let found = range(OBJECT, base, order, 1);
        assert_eq!(searched(&mut world, OBJECT, selector), found);
    }
    assert_eq!(searched(&mut world, OBJECT, 200), 0);
    // Other permissions, and another resource.
    for row in [[place(1, OBJECT, 200), 3, 0, 0], [0, 1, 0, 0]] {
        world.set_row(place(1, OBJECT, 200), row);
        assert_eq!(searched(&mut world, OBJECT, 0), range(OBJECT, 0, 7, 1));
        let alone = range(OBJECT, 200, 0, row[1]);
        assert_eq!(searched(&mut world, OBJECT, 200), alone);
    }
}

#[test]
fn lookup_joins_all_objects() {
    let mut world = World::partners();
    for selector in 64..91 {
        world.does(CREATE_SM, ROOT_EC, &[selector, 32, 0]);
    }
    assert_eq!(world.record(63)[0], 5);
    // Every object with its lowest permission, in order, from selector 128 on.
    let window = range(OBJECT, 128, 6, 0);
    let of_hypervisor = range(OBJECT, 0, 5, 1);
    let filled = world.gives(TO_ROOT_2, of_hypervisor, window, hot(0) | FROM_HYPERVISOR);
    assert_eq!(filled, 28);
    for (selector, object) in (32..41).chain(64..91).zip(28..) {
        assert_eq!(world.row(place(1, OBJECT, selector))[0], object);
        let item = range(OBJECT, selector, 0, 1);
        assert_eq!(world.gives(TO_ROOT_2, item, window, hot(object)), 1);
    }
    for selector in 128..192 {
        let descriptor = range(OBJECT, selector, 0, 0);
        let all = range(OBJECT, 128, 6, 1);
        assert_eq!(world.does(LOOKUP, ROOT_EC, &[descriptor]), all);
    }
    assert_eq!(world.does(LOOKUP, ROOT_EC, &[range(OBJECT, 192, 6, 0)]), 0);
}

#[test]
fn semaphores_go_up_and_down() {
    let mut world = World::boot();
    world.does(CREATE_SM, ROOT_EC, &[40, 32, 1]);
    for operation in [2, 3, u32::MAX] {
        // The operation is looked at before the capability.
        world.refuses(SM_CTRL, ROOT_EC, &[40, operation], Status::BadPar);
        world.refuses(SM_CTRL, ROOT_EC, &[41, operation], Status::BadPar);
    }
    for selector in [41, 32, 33, 34] {
        world.refuses(SM_CTRL, ROOT_EC, &[selector, 0], Status::BadCap);
        world.refuses(SM_CTRL, ROOT_EC, &[selector, 1], Status::BadCap);
    }
    assert_eq!(world.does(SM_CTRL, ROOT_EC, &[40, 0]), 0);
    assert_eq!(world.record(31), [5, 2, 0, 0, 0]);
    assert_eq!(world.does(SM_CTRL, ROOT_EC, &[256 + 40, 1]), 0);
    world.does(SM_CTRL, ROOT_EC, &[40, 1]);
    assert_eq!(world.record(31), [5, 0, 0, 0, 0]);
    world.refuses(SM_CTRL, ROOT_EC, &[40, 1], Status::ComTim);
    world.does(CREATE_SM, ROOT_EC, &[42, 32, u32::MAX - 1]);
    world.does(SM_CTRL, ROOT_EC, &[42, 0]);
    world.refuses(SM_CTRL, ROOT_EC, &[42, 0], Status::BadPar);
    world.does(SM_CTRL, ROOT_EC, &[42, 1]);
    // Each operation needs its own bit: up is the lowest.
    for (kept, operation) in [(1, 0), (2, 1)] {
        let mut world = world.clone();
        world.does(REVOKE, ROOT_EC, &[range(OBJECT, 42, 0, 3 & !kept), 1]);
        world.does(SM_CTRL, ROOT_EC, &[42, operation]);
        world.refuses(SM_CTRL, ROOT_EC, &[42, 1 - operation], Status::BadCap);
    }
}

#[test]
fn call_checks_in_order() {
    let mut world = World::partners();
    let good = message(0, &[]);
    let long = message(61, &[]);
    let block = windows(0, 0);
    // A second child EC on CPU 1 and a portal to it.
    world.does(CREATE_EC, ROOT_EC, &[45, CHILD_PD, 1, 0]);
    world.does(CREATE_PT, ROOT_EC, &[46, 32, 45, 0, 0, 0]);
    // Lengths first, even through a null selector.
    for (source, target) in [(63, 64), (64, 63), (65, 64), (64, 65), (0, 64), (64, 0)] {
        let (source, target) = (vec![u32::MAX; source], vec![5; target]);
        for portal in [FREE_SELECTOR, TO_CHILD, TO_ROOT, 46] {
            world.refuses_call(ROOT_EC, portal, &source, &target, Status::BadPar);
        }
    }
    // Then the portal: null, no portal, no call bit.
    for portal in [FREE_SELECTOR, 32, 33, 34, CHILD_PD] {
        world.refuses_call(ROOT_EC, portal, &long, &block, Status::BadCap);
    }
    // Then the callee that is the caller, though its counts are wrong too.
    world.refuses_call(ROOT_EC, TO_ROOT, &long, &block, Status::ComTim);
    // Then the CPUs, then the counts.
    world.refuses_call(ROOT_EC, 46, &long, &block, Status::BadCpu);
    world.refuses_call(ROOT_EC, TO_CHILD, &long, &block, Status::BadPar);
    let mut too_many = message(0, &[]);
    for word in [31 << 16, 30 << 16 | 1, 0xffff, 0xffff_0000, u32::MAX] {
        too_many[0] = word;
        world.refuses_call(ROOT_EC, TO_CHILD, &too_many, &block, Status::BadPar);
    }
    for word in [60, 30 << 16, 29 << 16 | 2] {
        too_many[0] = word;
        world.clone().sends(ROOT_EC, TO_CHILD, too_many, block);
    }
    world.sends(ROOT_EC, TO_CHILD + 256, good, block);
    let mut without_call = world.clone();
    without_call.does(REVOKE, ROOT_EC, &[range(OBJECT, TO_CHILD, 0, 2), 1]);
    without_call.refuses_call(ROOT_EC, TO_CHILD, &good, &block, Status::BadCap);
    let mut without_control = world;
    without_control.does(REVOKE, ROOT_EC, &[range(OBJECT, TO_CHILD, 0, 1), 1]);
    without_control.sends(ROOT_EC, TO_CHILD, good, block);
}

#[test]
fn other_calls_leave_the_blocks_alone() {
    let mut world = World::partners();
    for length in [0, 1, 64, 65] {
        let source = vec![3; length];
        let mut target = vec![4; length];
        let reply = world.call_with(
            LOOKUP,
            ROOT_EC,
            &[range(OBJECT, 32, 0, 0)],
            &source,
            &mut target,
        );
        assert_eq!(reply, (0, range(OBJECT, 32, 0, 31)));
        assert_eq!(target, vec![4; length]);
    }
}

#[test]
fn a_caller_needs_no_capability_for_itself() {
    let mut world = World::boot();
    world.does(REVOKE, ROOT_EC, &[range(OBJECT, 33, 0, 31), 1]);
    assert_eq!(world.row(place(1, OBJECT, 33)), NULL);
    world.does(LOOKUP, ROOT_EC, &[0]);
}

#[test]
fn census_checks() {
    let mut world = World::partners();
    let root_portal = place(1, OBJECT, TO_ROOT);
    let child_portal = place(2, OBJECT, TO_ROOT);
    let mut list = [9; 3];
    let refused = |world: &World, place: u32, status: Status| {
        let mut list = [9; 3];
        let reply = world.census(place, &mut list);
        assert_eq!((reply.status, reply.answer, list), (status, 0, [9; 3]));
    };
    refused(&world, 3072, Status::BadPar);
    refused(&world, u32::MAX, Status::BadPar);
    for null in [3071, 1535, 1536, 3070, 383] {
        refused(&world, null, Status::BadCap);
    }
    refused(&world, place(2, OBJECT, 1), Status::BadCap);
    let reply = world.census(root_portal, &mut list);
    assert_eq!(
        (reply.status, reply.answer, list),
        (Status::Success, 1, [child_portal, 9, 9])
    );
    // Domain 0's page 3 goes to four places; a list of three is too short.
    let page = range(MEMORY, 3, 0, 31);
    assert_eq!(
        world.gives(TO_CHILD, page, page, hot(0) | FROM_HYPERVISOR),
        1
    );
    assert_eq!(
        world.gives(TO_ROOT_2, page, page, hot(0) | FROM_HYPERVISOR),
        1
    );
    assert_eq!(
        world.gives(TO_ROOT_2, page, range(MEMORY, 1, 0, 0), hot(0)),
        1
    );
    assert_eq!(
        world.gives(
            TO_CHILD,
            range(MEMORY, 1, 0, 31),
            range(MEMORY, 2, 0, 0),
            hot(0)
        ),
        1
    );
    let mut list = [9; 3];
    let reply = world.census(place(0, MEMORY, 3), &mut list);
    assert_eq!(
        (reply.status, reply.answer, list),
        (Status::Short, 4, [9; 3])
    );
    let heirs = [
        place(1, MEMORY, 1),
        place(1, MEMORY, 3),
        place(2, MEMORY, 2),
        place(2, MEMORY, 3),
    ];
    assert_eq!(world.heirs(place(0, MEMORY, 3)), heirs);
    assert_eq!(world.heirs(place(1, MEMORY, 3)), [heirs[0], heirs[2]]);
    let mut exact = [9; 4];
    assert_eq!(
        world.census(place(0, MEMORY, 3), &mut exact).status,
        Status::Success
    );
    assert_eq!(exact, heirs);
    // No heirs: an empty list is long enough.
    let reply = world.census(place(2, MEMORY, 2), &mut []);
    assert_eq!((reply.status, reply.answer), (Status::Success, 0));
    world.set_record(40, [9, 0, 0, 0, 0]);
    refused(&world, 3072, Status::Damaged);
}

#[test]
fn census_and_revoke_reach_every_place_of_every_domain() {
    let mut world = World::boot();
    // Domains 2 to 7 with an EC each, and portals to these; a second EC of the root.
    for domain in 2..8 {
        world.does(CREATE_PD, ROOT_EC, &[40 + domain, 32, 0]);
        world.does(CREATE_EC, ROOT_EC, &[50 + domain, 40 + domain, 0, 0]);
        world.does(CREATE_PT, ROOT_EC, &[60 + domain, 32, 50 + domain, 0, 0, 0]);
    }
    world.does(CREATE_EC, ROOT_EC, &[51, 32, 0, 0]);
    world.does(CREATE_PT, ROOT_EC, &[61, 32, 51, 0, 0, 0]);
    world.does(CREATE_SM, ROOT_EC, &[100, 32, 0]);
    let page = range(MEMORY, 4, 0, 31);
    let port = range(IO, 4, 0, 31);
    for one in [page, port] {
        assert_eq!(world.gives(61, one, one, hot(0) | FROM_HYPERVISOR), 1);
    }
    let before = world.clone();
    for (space, selector) in [(MEMORY, 4), (IO, 4), (OBJECT, 100)] {
        let (origin, all) = (
            place(1, space, selector),
            range(space, 0, ORDERS[space as usize], 0),
        );
        let item = range(space, selector, 0, 31);
        let mut heirs = Vec::new();
        for domain in 1..8 {
            let null = (0..SELECTORS[space as usize])
                .filter(|&to| world.row(place(domain, space, to)) == NULL);
            for to in null.collect::<Vec<u32>>() {
                assert_eq!(world.gives(60 + domain, item, all, hot(to)), 1);
                heirs.push(place(domain, space, to));
            }
        }
        assert_eq!(world.heirs(origin), heirs);
        assert_eq!(
            heirs.last(),
            Some(&(place(7, space, SELECTORS[space as usize] - 1)))
        );
        world.does(REVOKE, ROOT_EC, &[item, 0]);
        assert!(world == before);
    }
}

#[test]
fn untyped_words_are_a_part_of_the_block() {
    let mut block = windows(0, 0);
    block[0] = 3 | 5 << 16;
    let part = model::untyped(&block);
    assert_eq!(part.len(), 3);
    assert!(std::ptr::eq(part.as_ptr(), &block[4]));
    for (word, length) in [
        (0, 0),
        (60, 60),
        (61, 0),
        (30 << 16, 0),
        (2 | 29 << 16, 2),
        (3 | 29 << 16, 0),
        (u32::MAX, 0),
    ] {
        block[0] = word;
        assert_eq!(model::untyped(&block).len(), length, "word 0 is {word:x}");
    }
    block[0] = 3;
    assert!(model::untyped(&block[..63]).is_empty());
    assert!(model::untyped(&[3; 65]).is_empty());
    assert!(model::untyped(&[]).is_empty());
}
