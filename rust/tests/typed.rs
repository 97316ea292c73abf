//! The typed calls, by the interface manual's examples.

use rudozhev::words::{DUMP_BYTES, OBJECT_WORDS, PLACE_WIDTH, PLACE_WORDS, RECORD_WIDTH};
use rudozhev::{
    words, Block, Capability, Damage, Descriptor, Domain, EventBase, Hotspot, Hypercall, Item,
    Location, ObjectNumber, ObjectSelector, Operation, Place, Qpd, Reason, Received, Refusal,
    Selector, Space, Tables,
};

const ROOT_EC: ObjectNumber = ObjectNumber::ROOT_EC;

/// The objects that `partners` makes second and fourth.
const CHILD_EC: u32 = 32;

fn selector(number: u32) -> ObjectSelector {
    ObjectSelector::new(number).expect("an object selector")
}

fn page(number: u32) -> Selector {
    Selector::new(Space::Memory, number).expect("a page")
}

fn object(number: u32) -> ObjectNumber {
    ObjectNumber::new(number).expect("an object number")
}

fn range(space: Space, base: u32, order: u32, mask: u32) -> Descriptor {
    Descriptor::new(space, base, order, mask).expect("a range")
}

/// Tables with domain 2 and its EC, a second EC of the root, portals of the root
/// to both at 37 and 39, and one of the child at 40 to the root's first EC.
fn partners() -> Result<Tables, Refusal> {
    let mut tables = Tables::booted();
    let pd = selector(32);
    let event_base = EventBase::at(ObjectSelector::FIRST);
    let portal = |new, ec| Hypercall::CreatePt {
        new: selector(new),
        pd,
        ec: selector(ec),
        mtd: 0,
        ip: 0,
        identifier: 0,
    };
    let calls = [
        Hypercall::CreatePd { new: selector(35), pd, initial: Descriptor::NULL },
        Hypercall::CreateEc { new: selector(36), pd: selector(35), cpu: 0, event_base },
        portal(37, 36),
        Hypercall::CreateEc { new: selector(38), pd, cpu: 0, event_base },
        portal(39, 38),
        portal(40, 33),
    ];
    for call in calls {
        tables.hypercall(ROOT_EC, call)?;
    }
    let portal = range(Space::Object, 40, 0, Descriptor::FULL_MASK);
    assert_eq!(lend(&mut tables, 37, portal, portal, false)?, 1);
    Ok(tables)
}

/// One delegate item by the root.
fn lend(
    tables: &mut Tables,
    portal: u32,
    range: Descriptor,
    window: Descriptor,
    from_hypervisor: bool,
) -> Result<u32, Refusal> {
    let (mut source, mut target) = (Block::new(), Block::new());
    target.set_windows(Descriptor::NULL, window);
    let item = Item::Delegate { range, hotspot: Hotspot::ZERO, from_hypervisor };
    source.set_message(&[], &[item]).expect("a short message");
    tables.call(ROOT_EC, selector(portal), &source, &mut target)
}

#[test]
fn boot_makes_sound_tables() {
    let tables = Tables::booted();
    assert!(tables.is_sound());
    assert_eq!(tables.damage(), None);
    let page = Place::new(Domain::HYPERVISOR, page(63));
    let held = Capability { resource: 63, permissions: 7, parent: None, depth: 0 };
    assert_eq!(tables.capability(page), Some(held));
    let zeroed = Damage { rule: 2, at: Location::Record(object(0)) };
    assert!(!Tables::zeroed().is_sound());
    assert_eq!(Tables::zeroed().damage(), Some(zeroed));
}

#[test]
fn boot_lends_two_pages_to_the_root() -> Result<(), Refusal> {
    let booted = Tables::booted();
    for (page, permissions, answer) in
        [(Selector::ROOT_UTCB_PAGE, 3, 253_965), (Selector::INFORMATION_PAGE, 1, 258_053)]
    {
        let mut tables = booted.clone();
        let [lender, own] =
            [Domain::HYPERVISOR, Domain::ROOT].map(|domain| Place::new(domain, page));
        let resource = page.number();
        let lent = Capability { resource, permissions, parent: Some(lender), depth: 1 };
        assert_eq!(tables.capability(own), Some(lent));
        let there = Descriptor::at(page, Descriptor::FULL_MASK).expect("a mask");
        assert_eq!(tables.lookup(ROOT_EC, there)?.map(Descriptor::word), Some(answer));
        assert!(tables.census(lender, &mut [0; 2])?.eq([own]));

        // Nothing came from the root's page; with self the root alone loses it.
        tables.hypercall(ROOT_EC, Hypercall::Revoke { range: there, with_self: false })?;
        assert!(tables == booted);
        tables.hypercall(ROOT_EC, Hypercall::Revoke { range: there, with_self: true })?;
        let mut places = *booted.place_words();
        places[PLACE_WIDTH * own.number() as usize..][..PLACE_WIDTH].fill(0);
        assert!(tables == Tables::from_words(places, *booted.object_words()));
        assert!(tables.is_sound());
        assert_eq!(tables.lookup(ROOT_EC, there)?, None);
        assert_eq!(tables.census(lender, &mut [])?.count(), 0);
    }
    for number in 0..62 {
        assert_eq!(booted.capability(Place::new(Domain::ROOT, page(number))), None);
    }
    Ok(())
}

#[test]
fn the_journal_example_answers_as_in_the_manual() -> Result<(), Refusal> {
    let mut tables = Tables::booted();
    let create = Hypercall::CreateSm { new: selector(40), pd: selector(32), count: 0 };
    tables.hypercall(ROOT_EC, create)?;
    let mut found = |word| tables.lookup(ROOT_EC, Descriptor::from_word(word));
    assert_eq!(found(163_843)?, Some(Descriptor::from_word(163_855)));
    assert_eq!(found(131_075)?, Some(range(Space::Object, 32, 0, 31)));
    assert_eq!(found(143_363)?, None);
    Ok(())
}

#[test]
fn lookup_reads_every_word_of_type_0_as_null() -> Result<(), Refusal> {
    let mut tables = Tables::booted();
    for word in [0, 4, 131_196, 4_294_967_292] {
        assert_eq!(tables.lookup(ROOT_EC, Descriptor::from_word(word))?, None);
    }
    let malformed = Descriptor::from_word(16_769);
    assert_eq!(tables.lookup(ROOT_EC, malformed), Err(Refusal::BadPar));
    Ok(())
}

#[test]
fn a_typed_hypercall_is_the_numbered_one() {
    let [new, pd, ec, semaphore] = [41, 32, 33, 40].map(selector);
    let range = range(Space::Object, 40, 0, 3);
    let (qpd, event_base) = (Qpd::new(1, 10_000).expect("a quantum"), EventBase::at(selector(7)));
    assert_eq!(event_base.selector(), selector(7));
    let (mtd, ip, identifier, count) = (4, 5, 6, 3);
    let calls = [
        (
            Hypercall::CreatePd { new, pd, initial: range },
            words::CREATE_PD,
            [41, 32, 163_855, 0, 0, 0],
        ),
        (
            Hypercall::CreateEc { new, pd, cpu: 2, event_base },
            words::CREATE_EC,
            [41, 32, 2, 7, 0, 0],
        ),
        (
            Hypercall::CreateSc { new, pd, ec, qpd },
            words::CREATE_SC,
            [41, 32, 33, 40_960_001, 0, 0],
        ),
        (
            Hypercall::CreatePt { new, pd, ec, mtd, ip, identifier },
            words::CREATE_PT,
            [41, 32, 33, 4, 5, 6],
        ),
        (Hypercall::CreateSm { new, pd, count }, words::CREATE_SM, [41, 32, 3, 0, 0, 0]),
        (Hypercall::Revoke { range, with_self: true }, words::REVOKE, [163_855, 1, 0, 0, 0, 0]),
        (
            Hypercall::SmCtrl { semaphore, operation: Operation::Down },
            words::SM_CTRL,
            [40, 1, 0, 0, 0, 0],
        ),
    ];
    for (call, number, arguments) in calls {
        assert_eq!(call.words(), (number, arguments));
    }
    let typed = calls.map(|(_, number, _)| number);
    assert_eq!(typed, [2, 3, 4, 5, 6, 7, 11]);
    assert_eq!([words::CALL, words::LOOKUP], [0, 8]);
}

#[test]
fn a_mask_without_a_permission_of_its_space_is_refused() -> Result<(), Refusal> {
    let mut tables = partners()?;
    let before = tables.clone();
    let revoke =
        |space, mask| Hypercall::Revoke { range: range(space, 8, 0, mask), with_self: true };
    for (space, mask) in [
        (Space::Memory, 0),
        (Space::Memory, 24),
        (Space::Io, 0),
        (Space::Io, 30),
        (Space::Object, 0),
    ] {
        let refused = tables.hypercall(ROOT_EC, revoke(space, mask)).err();
        assert_eq!(refused, Some(Refusal::BadPar), "{space:?}, mask {mask}");
    }
    for (space, mask) in [(Space::Memory, 28), (Space::Io, 31), (Space::Object, 16)] {
        tables.hypercall(ROOT_EC, revoke(space, mask))?;
    }
    // Nothing stands at selector 8, so those that succeed change nothing either.
    assert!(tables == before);
    let nothing = Hypercall::Revoke { range: Descriptor::NULL, with_self: true };
    tables.hypercall(ROOT_EC, nothing)
}

#[test]
fn the_hotspot_selects_the_part_of_the_window() -> Result<(), Refusal> {
    let mut tables = partners()?;
    let (mut source, mut target) = (Block::new(), Block::new());
    let hotspot = Hotspot::new(23).expect("a hotspot");
    let ports = range(Space::Io, 8, 2, 1);
    target.set_windows(Descriptor::NULL, range(Space::Io, 32, 4, 0));
    let item = Item::Delegate { range: ports, hotspot, from_hypervisor: true };
    source.set_message(&[], &[item]).expect("a short message");
    assert_eq!(tables.call(ROOT_EC, selector(39), &source, &mut target)?, 4);
    assert!(target.received().eq([Received::Delegated(range(Space::Io, 36, 2, 1))]));
    Ok(())
}

#[test]
fn objects_are_lent_and_found_above_selector_63() -> Result<(), Refusal> {
    let mut tables = partners()?;
    let window = range(Space::Object, 192, 4, 0);
    assert_eq!(lend(&mut tables, 39, range(Space::Object, 0, 4, 1), window, true)?, 16);
    let one = range(Space::Object, 200, 0, 0);
    assert_eq!(tables.lookup(ROOT_EC, one)?.map(Descriptor::word), Some(786_951));
    let [lender, heir] = [(Domain::HYPERVISOR, 8), (Domain::ROOT, 200)]
        .map(|(domain, number)| Place::new(domain, selector(number).selector()));
    assert!(tables.census(lender, &mut [0])?.eq([heir]));
    assert_eq!(heir.selector(), selector(200).selector());

    let all = range(Space::Object, 0, Space::Object.greatest_order(), Descriptor::FULL_MASK);
    tables.hypercall(ROOT_EC, Hypercall::Revoke { range: all, with_self: true })?;
    assert_eq!(tables.lookup(ROOT_EC, one)?, None);
    assert_eq!(tables.census(lender, &mut [])?.count(), 0);
    Ok(())
}

#[test]
fn a_chain_of_63_delegations_stands_and_no_64th_is_made() -> Result<(), Refusal> {
    let mut tables = partners()?;
    let create = Hypercall::CreateSm { new: selector(64), pd: selector(32), count: 0 };
    tables.hypercall(ROOT_EC, create)?;
    let one = |number| range(Space::Object, number, 0, 3);
    for number in 64..127 {
        assert_eq!(lend(&mut tables, 39, one(number), one(number + 1), false)?, 1);
    }
    assert_eq!(lend(&mut tables, 39, one(127), one(128), false)?, 0);
    assert!(tables.is_sound());
    let place = |number: u32| Place::new(Domain::ROOT, selector(number).selector());
    assert_eq!(tables.capability(place(127)).map(|held| held.depth), Some(63));
    assert_eq!(tables.capability(place(128)), None);
    assert!(tables.census(place(64), &mut [0; 63])?.eq((65..128).map(place)));

    // The nearest ancestor of its end is the place before; the child has none of the chain.
    let everything = range(Space::Object, 0, Space::Object.greatest_order(), 0);
    for (portal, shown) in [
        (39, Received::Translated(one(126))),
        (37, Received::NotTranslated(Reason::TranslationBroke)),
    ] {
        let (mut source, mut target) = (Block::new(), Block::new());
        target.set_windows(everything, Descriptor::NULL);
        source.set_message(&[], &[Item::Translate { range: one(127) }]).expect("a short message");
        assert_eq!(tables.call(ROOT_EC, selector(portal), &source, &mut target)?, 0);
        assert!(target.received().eq([shown]));
    }
    Ok(())
}

#[test]
fn a_null_item_says_why() -> Result<(), Refusal> {
    let mut tables = partners()?;
    let before = tables.clone();
    let malformed = Descriptor::from_word(3969);
    let pages = range(Space::Memory, 0, 3, 7);
    let window = range(Space::Memory, 8, 3, 0);
    let objects = range(Space::Object, 0, 6, 0);
    let mask_0 = range(Space::Memory, 0, 3, 0);
    for (item, window, reason, delegates, translates) in [
        (Descriptor::NULL, window, Reason::NullDescriptor, true, true),
        (pages, Descriptor::NULL, Reason::NullDescriptor, true, true),
        (malformed, Descriptor::NULL, Reason::NullDescriptor, true, true),
        (Descriptor::NULL, malformed, Reason::NullDescriptor, true, true),
        (malformed, window, Reason::MalformedDescriptor, true, true),
        (pages, malformed, Reason::MalformedDescriptor, true, true),
        (malformed, objects, Reason::MalformedDescriptor, true, true),
        (pages, objects, Reason::TypesDiffer, true, true),
        (mask_0, window, Reason::NothingFilled, true, false),
        (pages, window, Reason::TranslationBroke, false, true),
    ] {
        let delegate =
            Item::Delegate { range: item, hotspot: Hotspot::ZERO, from_hypervisor: true };
        let translate = Item::Translate { range: item };
        for (asked, item, windows, null) in [
            (delegates, delegate, (Descriptor::NULL, window), Received::NotDelegated(reason)),
            (translates, translate, (window, Descriptor::NULL), Received::NotTranslated(reason)),
        ] {
            if asked {
                let (mut source, mut target) = (Block::new(), Block::new());
                target.set_windows(windows.0, windows.1);
                source.set_message(&[], &[item]).expect("a short message");
                assert_eq!(tables.call(ROOT_EC, selector(39), &source, &mut target)?, 0);
                assert_eq!(target.received().collect::<Vec<_>>(), [null], "{item:?}");
            }
        }
    }
    assert!(tables == before);
    Ok(())
}

#[test]
fn what_is_lent_is_seen_translated_and_revoked() -> Result<(), Refusal> {
    let mut tables = partners()?;
    let pages = range(Space::Memory, 0, 3, 7);
    assert_eq!(lend(&mut tables, 39, pages, range(Space::Memory, 8, 3, 0), true)?, 8);
    let found = tables.lookup(ROOT_EC, range(Space::Memory, 10, 0, 0))?;
    assert_eq!(found, Some(range(Space::Memory, 8, 3, 7)));
    assert_eq!(found.map(Descriptor::word), Some(33_181));
    let own = range(Space::Memory, 8, 1, 3);
    assert_eq!(lend(&mut tables, 37, own, range(Space::Memory, 20, 1, 0), false)?, 2);

    // The child names what it got, and the root sees its own range.
    let (mut source, mut target) = (Block::new(), Block::new());
    target.set_windows(range(Space::Memory, 0, 6, 0), Descriptor::NULL);
    let got = range(Space::Memory, 20, 1, Descriptor::FULL_MASK);
    let items = [Item::Translate { range: got }, Item::Translate { range: pages }];
    source.set_message(&[5, 6], &items).expect("a short message");
    assert_eq!(tables.call(object(CHILD_EC), selector(40), &source, &mut target)?, 0);
    assert_eq!(target.untyped(), [5, 6]);
    let received: Vec<Received> = target.received().collect();
    let broke = Received::NotTranslated(Reason::TranslationBroke);
    assert_eq!(received, [Received::Translated(own), broke]);

    let place = Place::new(Domain::ROOT, page(8));
    let heir = Place::new(Domain::new(2).expect("a domain"), page(20));
    let short = tables.census(place, &mut []).err();
    assert_eq!(short, Some(Refusal::Short { needed: 1 }));
    assert!(tables.census(place, &mut [0; 4])?.eq([heir]));
    let held = Capability { resource: 0, permissions: 3, parent: Some(place), depth: 2 };
    assert_eq!(tables.capability(heir), Some(held));
    let range = range(Space::Memory, 8, 0, Descriptor::FULL_MASK);
    tables.hypercall(ROOT_EC, Hypercall::Revoke { range, with_self: false })?;
    assert_eq!(tables.census(place, &mut [])?.count(), 0);
    assert_eq!(tables.capability(heir), None);
    Ok(())
}

#[test]
fn a_refusal_is_a_value_and_changes_nothing() -> Result<(), Refusal> {
    let mut tables = partners()?;
    let before = tables.clone();
    let [taken, free, pd] = [35, 50, 32].map(selector);
    let event_base = EventBase::at(ObjectSelector::FIRST);
    let qpd = Qpd::new(0, 10).expect("a quantum of 20 bits");
    let refused = [
        (Hypercall::CreateSm { new: taken, pd, count: 0 }, Refusal::BadCap),
        (Hypercall::CreateEc { new: free, pd, cpu: 4, event_base }, Refusal::BadCpu),
        (Hypercall::CreateSc { new: free, pd, ec: selector(33), qpd }, Refusal::BadPar),
        (Hypercall::SmCtrl { semaphore: pd, operation: Operation::Up }, Refusal::BadCap),
    ];
    for (call, refusal) in refused {
        assert_eq!(tables.hypercall(ROOT_EC, call), Err(refusal));
    }
    let at = Descriptor::NULL;
    assert_eq!(tables.lookup(ObjectNumber::ROOT_PD, at), Err(Refusal::BadCaller));
    let (source, mut target) = (Block::new(), Block::from_words([9; 64]));
    let reply = tables.call(ROOT_EC, selector(40), &source, &mut target);
    assert_eq!(reply, Err(Refusal::ComTim));
    assert_eq!(target, Block::from_words([9; 64]));
    assert!(tables == before);
    assert_eq!(Qpd::new(1, 1 << 20), None);
    Ok(())
}

#[test]
fn damaged_tables_are_refused_by_that_name() {
    let booted = Tables::booted();
    let mut places: [u32; PLACE_WORDS] = *booted.place_words();
    let objects: [u32; OBJECT_WORDS] = *booted.object_words();
    let place = Place::new(Domain::ROOT, selector(50).selector());
    places[place.number() as usize * 4] = 1;
    let mut tables = Tables::from_words(places, objects);
    assert_eq!(tables.damage(), Some(Damage { rule: 10, at: Location::Place(place) }));
    assert_eq!(tables.lookup(ROOT_EC, Descriptor::NULL), Err(Refusal::Damaged));
    tables.boot();
    assert!(tables == booted);
}

/// Boot's tables with other words in some records and places.
fn changed(records: &[(u32, [u32; RECORD_WIDTH])], rows: &[(u32, [u32; PLACE_WIDTH])]) -> Tables {
    let booted = Tables::booted();
    let (mut places, mut objects) = (*booted.place_words(), *booted.object_words());
    for &(number, words) in records {
        objects[number as usize * RECORD_WIDTH..][..RECORD_WIDTH].copy_from_slice(&words);
    }
    for &(number, words) in rows {
        places[number as usize * PLACE_WIDTH..][..PLACE_WIDTH].copy_from_slice(&words);
    }
    Tables::from_words(places, objects)
}

/// Whether a repair answers so and empties these places, and leaves a call to succeed; or is
/// refused and leaves every word.
fn repairs(found: &Tables, emptied: &[u32], reply: Result<u32, Refusal>) {
    let mut tables = found.clone();
    assert_eq!(tables.repair(), reply);
    let mut places = *found.place_words();
    for &place in emptied {
        places[place as usize * PLACE_WIDTH..][..PLACE_WIDTH].fill(0);
    }
    assert!(tables == Tables::from_words(places, *found.object_words()));
    assert_eq!(tables.is_sound(), reply.is_ok());
    let refusal = tables.lookup(ROOT_EC, Descriptor::NULL).err();
    assert_eq!(refusal, reply.err());
    if reply.is_ok() {
        assert_eq!(tables.repair(), Ok(0));
    }
}

#[test]
fn found_tables_are_repaired_as_in_the_manual() {
    let at_place = |rule, number| {
        Some(Damage { rule, at: Location::Place(Place::from_number(number).expect("a place")) })
    };
    let line: Vec<_> = (0..64)
        .map(|step| (384 + step, [0, 7, if step == 0 { 1 } else { 384 + step }, step + 1]))
        .collect();
    // What can be mended, with the places that are emptied and how many of them were live.
    for (rows, damage, emptied, lost) in [
        (&[][..], None, &[][..], 0),
        (&[(392, [5, 0, 0, 0])], at_place(10, 392), &[392], 0),
        (&[(392, [0, 7, 0, 0])], at_place(11, 392), &[392], 1),
        (&[(1_152, [0, 1, 1, 1])], at_place(11, 1_152), &[1_152], 1),
        (
            &[(384, [0, 3, 1, 1]), (385, [0, 7, 385, 2]), (386, [0, 1, 386, 3])],
            at_place(11, 385),
            &[385, 386],
            2,
        ),
        (&[(384, [0, 7, 386, 1]), (385, [0, 7, 385, 2])], at_place(11, 384), &[384, 385], 2),
        (&[(384, [0, 7, 385, 1])], at_place(11, 384), &[384], 1),
        (&line[..63], None, &[], 0),
        (&line, at_place(12, 447), &[447], 1),
        (&[(200, [9, 0, 0, 0])], at_place(2, 200), &[200], 0),
    ] {
        let found = changed(&[], rows);
        assert_eq!(found.damage(), damage);
        repairs(&found, emptied, Ok(lost));
    }
    // What cannot: domain 0 is broken.
    for rows in [
        &[(5, [5, 7, 0, 1]), (389, [5, 7, 6, 2])][..],
        &[(5, [5, 3, 0, 0]), (389, [5, 3, 6, 1])],
        &[(5, [5, 7, 385, 1]), (384, [5, 7, 0, 0]), (389, [5, 7, 6, 2])],
        &[(5, [0, 0, 0, 0])],
    ] {
        let found = changed(&[], rows);
        assert_eq!(found.damage(), at_place(2, 5));
        repairs(&found, &[], Err(Refusal::Damaged));
    }
    // Or a record is, with a place that would go or without one.
    for (words, rule, rows) in
        [([0, 9, 0, 0, 0], 5, &[][..]), ([6, 0, 0, 0, 0], 4, &[(600, [31, 1, 0, 0])])]
    {
        let found = changed(&[(31, words)], rows);
        assert_eq!(found.damage(), Some(Damage { rule, at: Location::Record(object(31)) }));
        repairs(&found, &[], Err(Refusal::Damaged));
    }
}

#[test]
fn a_repair_goes_on_with_what_has_a_whole_chain() -> Result<(), Refusal> {
    let mut tables = partners()?;
    let pages = range(Space::Memory, 0, 3, 7);
    assert_eq!(lend(&mut tables, 39, pages, range(Space::Memory, 8, 3, 0), true)?, 8);
    let own = range(Space::Memory, 8, 1, 3);
    assert_eq!(lend(&mut tables, 37, own, range(Space::Memory, 20, 1, 0), false)?, 2);

    // The root's page 8 has a parent that is not there, and domain 2 has its page 20 from it.
    let lost = Place::new(Domain::ROOT, page(8));
    let heir = Place::new(Domain::new(2).expect("a domain"), page(20));
    let mut places = *tables.place_words();
    places[lost.number() as usize * PLACE_WIDTH + 2] = 3_073;
    let mut found = Tables::from_words(places, *tables.object_words());
    assert_eq!(found.damage(), Some(Damage { rule: 11, at: Location::Place(lost) }));
    assert_eq!(found.lookup(ROOT_EC, pages), Err(Refusal::Damaged));
    assert_eq!(found.repair(), Ok(2));

    let [before, after] = [&tables, &found].map(|tables| {
        let held = (0..words::PLACES).filter_map(Place::from_number);
        held.filter(|&place| tables.capability(place).is_some()).collect::<Vec<Place>>()
    });
    assert!(after
        .iter()
        .copied()
        .eq(before.into_iter().filter(|&place| place != lost && place != heir)));
    assert_eq!(found.lookup(ROOT_EC, range(Space::Memory, 8, 0, 0))?, None);
    let next = range(Space::Memory, 9, 0, 0);
    assert_eq!(found.lookup(ROOT_EC, next)?, Some(range(Space::Memory, 9, 0, 7)));
    // What was lost can be lent anew.
    let anew = range(Space::Memory, 0, 0, 7);
    assert_eq!(lend(&mut found, 39, anew, range(Space::Memory, 8, 0, 0), true)?, 1);
    Ok(())
}

#[test]
fn a_dump_has_the_words_of_both_tables() {
    let mut bytes = [0xa5; DUMP_BYTES];
    let tables = changed(&[(63, [1, 2, 3, 4, 0xfedc_ba98])], &[(1, [0x0403_0201, 0, 7, 1 << 31])]);
    tables.dump(&mut bytes);
    assert_eq!(bytes.len(), 50_432);
    assert_eq!(bytes[..16], [0, 0, 0, 0, 7, 0, 0, 0, 0, 0, 0, 0, 0, 0, 0, 0]);
    assert_eq!(bytes[16..32], [1, 2, 3, 4, 0, 0, 0, 0, 7, 0, 0, 0, 0, 0, 0, 128]);
    assert_eq!(bytes[49_152..49_160], [3, 0, 0, 0, 64, 0, 0, 0]);
    assert_eq!(bytes[50_428..], [0x98, 0xba, 0xdc, 0xfe]);
    assert!(Tables::from_dump(&bytes) == tables);
    bytes[50_431] ^= 1;
    assert!(Tables::from_dump(&bytes) != tables);
}
