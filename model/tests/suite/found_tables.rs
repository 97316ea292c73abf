//! Found tables: dumps, the line that names a damage, and repair.

use std::fs;
use std::path::Path;

use model::dump::{self, Dump, WrongLength, BYTES};
use model::dump_generator::{damaged, dump, Sort, Stock};
use model::random::Random;
use model::repair::repaired;
use model::{damage, is_sound, repair, Damage, Location, Status};

use crate::world::*;

/// The first place outside domain 0.
pub const OUTSIDE: u32 = DOMAIN_PLACES;

/// Places of the longest whole chain.
const LONGEST: usize = 64;

pub fn world_of(dump: &Dump) -> World {
    World {
        places: dump.places.clone(),
        objects: dump.objects.clone(),
    }
}

fn dump_of(world: &World) -> Dump {
    Dump {
        places: world.places.clone(),
        objects: world.objects.clone(),
    }
}

/// The tables with the repaired place table.
fn repaired_world(world: &World) -> World {
    World {
        places: repaired(&world.places, &world.objects),
        objects: world.objects.clone(),
    }
}

/// The places whose words a repair changes.
fn emptied(world: &World) -> Vec<u32> {
    let after = repaired_world(world);
    (0..PLACES)
        .filter(|&number| world.row(number) != after.row(number))
        .collect()
}

/// The operation on a copy of the tables, and the tables after it.
pub fn operated(world: &World) -> ((Status, u32), World) {
    let mut after = world.clone();
    let reply = repair(&mut after.places, &world.objects);
    ((reply.status, reply.answer), after)
}

/// What the manual prints of a dump, from the damage report.
fn expected_output(world: &World) -> Vec<u8> {
    let line = match damage(&world.places, &world.objects) {
        None => "sound\n".to_string(),
        Some(Damage { rule, at }) => match at {
            Location::Record(number) => format!("{rule} record {number}\n"),
            Location::Place(number) => format!("{rule} place {number}\n"),
            Location::Nowhere => panic!("tables of a dump have the right lengths"),
        },
    };
    let after = repaired_world(world);
    let words = after.places.iter().chain(&after.objects);
    let bytes = words.flat_map(|word| word.to_le_bytes());
    line.into_bytes().into_iter().chain(bytes).collect()
}

// Another repair, from the manual's rules and definitions alone.

/// A condition of the rules 11 and 12 that a live place fails.
#[derive(Clone, Copy, PartialEq, Eq, Debug)]
pub enum Fault {
    Domain,
    ResourcePast,
    FreeRecord,
    KindAbove,
    Greatest,
    NoParent,
    DepthWithoutParent,
    ParentPast,
    ParentNull,
    OtherSpace,
    OtherResource,
    AboveParent,
    OtherDepth,
    TooDeep,
}

/// The conditions that a live place fails.
fn faults(world: &World, pds: &[bool; 8], number: u32) -> Vec<Fault> {
    let [resource, permissions, word, depth] = world.row(number);
    let (space, _) = within(number);
    let domain = number / DOMAIN_PLACES;
    let mut found = Vec::new();
    if domain != 0 && !pds[domain as usize] {
        found.push(Fault::Domain);
    }
    let greatest = if resource >= 64 {
        Err(Fault::ResourcePast)
    } else if space == OBJECT {
        match world.record(resource)[0] {
            0 => Err(Fault::FreeRecord),
            1 => Ok(31),
            2 => Ok(7),
            3 => Ok(1),
            4 | 5 => Ok(3),
            _ => Err(Fault::KindAbove),
        }
    } else {
        Ok([7, 1][space as usize])
    };
    match greatest {
        Ok(greatest) if permissions > greatest => found.push(Fault::Greatest),
        Ok(_) => {}
        Err(fault) => found.push(fault),
    }
    if word == 0 {
        if depth != 0 {
            found.push(Fault::DepthWithoutParent);
        }
        if space != OBJECT && domain != 0 {
            found.push(Fault::NoParent);
        }
    } else if word > PLACES {
        found.push(Fault::ParentPast);
    } else {
        let above = world.row(word - 1);
        if above[1] == 0 {
            found.push(Fault::ParentNull);
        } else {
            if within(word - 1).0 != space {
                found.push(Fault::OtherSpace);
            }
            if above[0] != resource {
                found.push(Fault::OtherResource);
            }
            if above[1] | permissions != above[1] {
                found.push(Fault::AboveParent);
            }
            if u64::from(above[3]) + 1 != u64::from(depth) {
                found.push(Fault::OtherDepth);
            }
        }
    }
    if depth > DEPTH_LIMIT {
        found.push(Fault::TooDeep);
    }
    found
}

/// Which domains some PD record has.
fn domains(world: &World) -> [bool; 8] {
    let mut pds = [false; 8];
    for number in 0..64 {
        if let [1, domain @ 0..8, ..] = world.record(number) {
            pds[domain as usize] = true;
        }
    }
    pds
}

/// Tables as they were found, each live place with its faults.
pub struct Found<'a> {
    world: &'a World,
    pub pds: [bool; 8],
    pub faults: Vec<Vec<Fault>>,
    /// Whether a place is live and its chain is whole.
    pub whole: Vec<bool>,
}

impl<'a> Found<'a> {
    pub fn new(world: &'a World) -> Found<'a> {
        let pds = domains(world);
        let faults = (0..PLACES).map(|number| match world.row(number)[1] {
            0 => Vec::new(),
            _ => faults(world, &pds, number),
        });
        let mut found = Found {
            world,
            pds,
            faults: faults.collect(),
            whole: Vec::new(),
        };
        found.whole = (0..PLACES).map(|number| found.has_whole(number)).collect();
        found
    }

    pub fn is_live(&self, number: u32) -> bool {
        self.world.row(number)[1] != 0
    }

    pub fn keeps(&self, number: u32) -> bool {
        self.is_live(number) && self.faults[number as usize].is_empty()
    }

    /// Walks a live place's chain up, as the manual defines it, until it ends, meets a place that
    /// breaks a rule or comes back to one where it has been.
    fn has_whole(&self, number: u32) -> bool {
        let mut been = Vec::new();
        let mut at = number;
        loop {
            if !self.keeps(at) || been.contains(&at) {
                return false;
            }
            been.push(at);
            match self.world.row(at)[2] {
                0 => break,
                word => at = word - 1,
            }
        }
        assert!(been.len() <= LONGEST, "a whole chain of {}", been.len());
        assert_eq!(been.len() as u32, self.world.row(number)[3] + 1);
        true
    }

    /// The repaired place table by the chains.
    fn by_chains(&self) -> Vec<u32> {
        let row = |number: u32| match number < OUTSIDE || self.whole[number as usize] {
            true if self.is_live(number) => self.world.row(number),
            _ => NULL,
        };
        (0..PLACES).flat_map(row).collect()
    }

    /// The repaired place table without chains. On a copy every place that breaks rule 11 or 12
    /// is emptied, then every one that breaks them now, and so on. At the end exactly the live
    /// places with whole chains are left: none of those is ever emptied, as its parent never is,
    /// and each that is left has a parent that is left, one less deep, or none. Places of
    /// domain 0 have to go from the copy too, since a parent's own faults are not seen below it.
    fn by_turns(&self) -> Vec<u32> {
        let mut left = self.world.clone();
        loop {
            let live = (0..PLACES).filter(|&number| left.row(number)[1] != 0);
            let broken: Vec<u32> = live
                .filter(|&number| !faults(&left, &self.pds, number).is_empty())
                .collect();
            if broken.is_empty() {
                break;
            }
            for number in broken {
                left.set_row(number, NULL);
            }
        }
        for number in 0..PLACES {
            let row = match self.world.row(number) {
                [_, 0, ..] => NULL,
                row if number < OUTSIDE => row,
                _ => left.row(number),
            };
            left.set_row(number, row);
        }
        left.places
    }

    /// The faults are those that a report names once the rules before them hold.
    fn agrees_with_the_report(&self) {
        let lowest = |is_rule_12: bool| {
            (0..PLACES).find(|&number| {
                let mut faults = self.faults[number as usize].iter();
                faults.any(|&fault| (fault == Fault::TooDeep) == is_rule_12)
            })
        };
        let named = match (lowest(false), lowest(true)) {
            (Some(number), _) => Some((11, number)),
            (None, Some(number)) => Some((12, number)),
            (None, None) => None,
        };
        let report = damage(&self.world.places, &self.world.objects);
        if report.is_none_or(|damage| damage.rule > 10) {
            let report = report.map(|Damage { rule, at }| match at {
                Location::Place(number) => (rule, number),
                _ => panic!("rule {rule} is one of places"),
            });
            assert_eq!(report, named);
        }
    }

    /// The live place that a live place names as its parent.
    pub fn live_parent(&self, number: u32) -> Option<u32> {
        let above = self.world.row(number)[2].checked_sub(1)?;
        (self.is_live(number) && above < PLACES && self.is_live(above)).then_some(above)
    }
}

/// Holds what the manual claims of a repair to tables of the right lengths.
fn holds(world: &World) {
    let after = repaired_world(world);
    let found = Found::new(world);
    found.agrees_with_the_report();
    assert!(
        after.places == found.by_chains(),
        "a repair by chains differs"
    );
    assert!(
        after.places == found.by_turns(),
        "a repair by turns differs"
    );
    let mut lost = 0;
    for number in 0..PLACES {
        let (before, row) = (world.row(number), after.row(number));
        assert!(row == before || row == NULL, "place {number}: {row:?}");
        assert!(before[1] != 0 || row == NULL);
        if number < OUTSIDE {
            assert!(before[1] == 0 || row == before);
        } else if row[1] != 0 && row[2] != 0 {
            assert_ne!(
                after.row(row[2] - 1)[1],
                0,
                "place {number} lost its parent"
            );
        }
        lost += u32::from(before != row && before[1] != 0);
    }
    assert!(
        repaired_world(&after) == after,
        "a second repair changes more"
    );

    // What is sound afterwards, and what the operation makes of it.
    let mut at_boot = World::listed();
    at_boot.objects.clone_from(&world.objects);
    let is_good_start = |number: u32| match (world.row(number), listed_row(number)) {
        ([_, 0, ..], NULL) => true,
        (row, listed) => row == listed,
    };
    // Boot's places are sound with all records that keep the rules 2 to 9.
    let records_are_good = is_sound(&at_boot.places, &at_boot.objects);
    let becomes_sound = records_are_good && (0..OUTSIDE).all(is_good_start);
    assert_eq!(is_sound(&after.places, &after.objects), becomes_sound);
    let (reply, operated) = operated(world);
    if becomes_sound {
        assert_eq!(reply, (Status::Success, lost));
        assert!(operated == after);
    } else {
        assert_eq!(reply, (Status::Damaged, 0));
        assert!(operated == *world, "a refused repair changed a word");
    }
    if is_sound(&world.places, &world.objects) {
        assert!(after == *world, "sound tables were changed");
    }
}

/// Holds a report into buffers of several lengths to the output.
fn reports(random: &mut Random, bytes: &[u8], output: &[u8]) {
    let whole = output.len();
    let any = random.below(whole as u32) as usize;
    for length in [0, whole - 1, any, whole, whole + 1, whole + 70] {
        let mark = random.word() as u8;
        let mut buffer = vec![mark; length];
        assert_eq!(dump::report(bytes, &mut buffer), whole);
        if length < whole {
            assert!(buffer.iter().all(|&byte| byte == mark), "room for {length}");
        } else {
            assert!(buffer[..whole] == *output, "room for {length}");
            assert!(buffer[whole..].iter().all(|&byte| byte == mark));
        }
    }
}

/// Holds everything that is said of a dump to bytes.
fn is_inspected(random: &mut Random, bytes: &[u8]) {
    let expected = match Dump::read(bytes) {
        Ok(dump) => {
            assert_eq!(bytes.len(), BYTES);
            assert!(dump.bytes() == bytes, "written back as other bytes");
            let world = world_of(&dump);
            holds(&world);
            assert!(dump.repaired() == dump_of(&repaired_world(&world)));
            expected_output(&world)
        }
        Err(WrongLength::Short) => {
            assert!(bytes.len() < BYTES);
            b"short\n".to_vec()
        }
        Err(WrongLength::Long) => {
            assert!(bytes.len() > BYTES);
            b"long\n".to_vec()
        }
    };
    let output = dump::output(bytes);
    assert!(output == expected, "the output differs");
    assert!(output.starts_with(dump::line(bytes).as_bytes()));
    if random.percent(10) {
        reports(random, bytes, &output);
    }
}

// Examples.

/// What a repair makes of boot's tables with a change.
enum After {
    Boot,
    Same,
    Sound,
    Breaks(u32, Location),
}

struct Example {
    places: Vec<(u32, [u32; 4])>,
    records: Vec<(u32, [u32; 5])>,
    line: &'static str,
    emptied: &'static [u32],
    after: After,
    reply: (Status, u32),
}

/// A line in the memory of domain 1, of page 0 from place 384 on.
fn page_line(places: u32) -> Vec<(u32, [u32; 4])> {
    let below = (1..places).map(|step| (384 + step, [0, 7, 384 + step, step + 1]));
    [(384, [0, 7, 1, 1])].into_iter().chain(below).collect()
}

/// The manual's examples of tables of the right lengths, in their order.
fn examples() -> Vec<Example> {
    let places = |places: &[(u32, [u32; 4])]| places.to_vec();
    let damaged = (Status::Damaged, 0);
    let lost = |count: u32| (Status::Success, count);
    let example = |places, line, emptied, after, reply| Example {
        places,
        records: Vec::new(),
        line,
        emptied,
        after,
        reply,
    };
    vec![
        example(Vec::new(), "sound", &[], After::Same, lost(0)),
        example(
            places(&[(392, [5, 0, 0, 0])]),
            "10 place 392",
            &[392],
            After::Boot,
            lost(0),
        ),
        example(
            places(&[(392, [0, 7, 0, 0])]),
            "11 place 392",
            &[392],
            After::Boot,
            lost(1),
        ),
        example(
            places(&[(1152, [0, 1, 1, 1])]),
            "11 place 1152",
            &[1152],
            After::Boot,
            lost(1),
        ),
        example(
            places(&[
                (384, [0, 3, 1, 1]),
                (385, [0, 7, 385, 2]),
                (386, [0, 1, 386, 3]),
            ]),
            "11 place 385",
            &[385, 386],
            After::Sound,
            lost(2),
        ),
        example(
            places(&[(384, [0, 7, 386, 1]), (385, [0, 7, 385, 2])]),
            "11 place 384",
            &[384, 385],
            After::Boot,
            lost(2),
        ),
        example(
            places(&[(384, [0, 7, 385, 1])]),
            "11 place 384",
            &[384],
            After::Boot,
            lost(1),
        ),
        example(page_line(64), "12 place 447", &[447], After::Sound, lost(1)),
        example(
            places(&[(5, [5, 7, 0, 1]), (389, [5, 7, 6, 2])]),
            "2 place 5",
            &[389],
            After::Breaks(2, Location::Place(5)),
            damaged,
        ),
        example(
            places(&[(5, [5, 3, 0, 0]), (389, [5, 3, 6, 1])]),
            "2 place 5",
            &[],
            After::Same,
            damaged,
        ),
        example(
            places(&[
                (5, [5, 7, 385, 1]),
                (384, [5, 7, 0, 0]),
                (389, [5, 7, 6, 2]),
            ]),
            "2 place 5",
            &[384, 389],
            After::Breaks(2, Location::Place(5)),
            damaged,
        ),
        example(
            places(&[(200, [9, 0, 0, 0])]),
            "2 place 200",
            &[200],
            After::Boot,
            lost(0),
        ),
        Example {
            places: Vec::new(),
            records: vec![(31, [0, 9, 0, 0, 0])],
            line: "5 record 31",
            emptied: &[],
            after: After::Same,
            reply: damaged,
        },
        Example {
            places: places(&[(600, [31, 1, 0, 0])]),
            records: vec![(31, [6, 0, 0, 0, 0])],
            line: "4 record 31",
            emptied: &[600],
            after: After::Breaks(4, Location::Record(31)),
            reply: damaged,
        },
    ]
}

#[test]
fn the_manuals_examples() {
    let boot = World::listed();
    for example in examples() {
        let mut world = boot.clone();
        for (number, row) in example.places {
            world.set_row(number, row);
        }
        for (number, record) in example.records {
            world.set_record(number, record);
        }
        let bytes = dump_of(&world).bytes();
        assert_eq!(dump::line(&bytes), format!("{}\n", example.line));
        assert_eq!(emptied(&world), example.emptied, "{}", example.line);
        let after = repaired_world(&world);
        let breach = damage(&after.places, &after.objects);
        match example.after {
            After::Boot => assert!(after == boot),
            After::Same => assert!(after == world),
            After::Sound => assert_eq!(breach, None),
            After::Breaks(rule, at) => assert_eq!(breach, Some(Damage { rule, at })),
        }
        let printed = [dump::line(&bytes).into_bytes(), dump_of(&after).bytes()].concat();
        assert!(dump::output(&bytes) == printed);
        assert_eq!(operated(&world).0, example.reply, "{}", example.line);
        holds(&world);
    }
}

#[test]
fn bytes_of_another_number_are_named_and_nothing_follows() {
    let mut bytes = dump_of(&World::listed()).bytes();
    assert_eq!((BYTES, bytes.len()), (50_432, 50_432));
    for length in [0, 1, 3, 49_152, 50_428, 50_431] {
        assert_eq!(dump::output(&bytes[..length]), b"short\n");
        assert_eq!(Dump::read(&bytes[..length]), Err(WrongLength::Short));
    }
    bytes.push(0);
    assert_eq!(dump::output(&bytes), b"long\n");
    assert_eq!(Dump::read(&bytes), Err(WrongLength::Long));
    for length in [50_436, 65_536, 100_864] {
        bytes.resize(length, 7);
        assert_eq!(dump::output(&bytes), b"long\n");
    }
}

#[test]
fn a_dump_has_the_places_and_then_the_records() {
    let mut world = World::listed();
    for number in 0..PLACES {
        let first = 0x8000_0000 | number << 8;
        world.set_row(number, [first, first + 1, first + 2, first + 3]);
    }
    for number in 0..64 {
        let first = 0xc000_0000 | number << 8;
        let record = [first, first + 1, first + 2, first + 3, first + 4];
        world.set_record(number, record);
    }
    let bytes = dump_of(&world).bytes();
    for number in [0, 1, 383, 384, 3071] {
        let start = 16 * number as usize;
        let words = world.row(number).map(u32::to_le_bytes);
        assert_eq!(bytes[start..start + 16], *words.as_flattened());
    }
    for number in [0, 1, 31, 63] {
        let start = 49_152 + 20 * number as usize;
        let words = world.record(number).map(u32::to_le_bytes);
        assert_eq!(bytes[start..start + 20], *words.as_flattened());
    }
    assert_eq!(bytes[..4], [0, 0, 0, 0x80]);
    assert_eq!(bytes[16..20], [0, 1, 0, 0x80]);
    assert_eq!(bytes.len(), 50_432);
    let read = Dump::read(&bytes).expect("as many bytes as a dump has");
    assert!(world_of(&read) == world);
}

#[test]
fn a_report_needs_room_for_all_of_it() {
    let mut random = Random::new(44);
    let mut bytes = dump_of(&World::listed()).bytes();
    let output = [b"sound\n".to_vec(), bytes.clone()].concat();
    reports(&mut random, &bytes, &output);
    let start = 16 * 392;
    bytes[start] = 5;
    let boot = dump_of(&World::listed()).bytes();
    let output = [b"10 place 392\n".to_vec(), boot].concat();
    reports(&mut random, &bytes, &output);
    reports(&mut random, &bytes[1..], b"short\n");
    reports(&mut random, &[], b"short\n");
    bytes.push(0);
    reports(&mut random, &bytes, b"long\n");
}

#[test]
fn tables_of_other_lengths_are_refused() {
    for (places, objects) in [
        (12_287, 320),
        (12_284, 320),
        (12_289, 320),
        (12_292, 320),
        (12_288, 319),
        (12_288, 315),
        (12_288, 321),
        (12_288, 325),
        (12_288, 0),
        (0, 320),
        (0, 0),
        (1, 1),
    ] {
        let mut world = World::listed();
        world.set_row(392, [5, 0, 0, 0]);
        world.set_row(393, [0, 7, 0, 0]);
        world.places.resize(places, 9);
        world.objects.resize(objects, 0);
        assert!(repaired(&world.places, &world.objects) == world.places);
        let (reply, after) = operated(&world);
        assert_eq!(reply, (Status::Damaged, 0), "{places} and {objects} words");
        assert!(after == world);
    }
}

// Lines of descent.

/// A line of resource 4 of a space, from domain 0 down to a depth through the root's selectors,
/// rising or falling; the places by depth.
fn line(space: u32, depth: u32, is_rising: bool) -> (World, Vec<u32>) {
    let permissions = [7, 1, 3][space as usize];
    let count = SELECTORS[space as usize];
    let first = if space == OBJECT { 100 } else { 0 };
    let mut world = World::listed();
    world.does(CREATE_PD, ROOT_EC, &[40, 32, 0]);
    let mut places = vec![place(0, space, 4)];
    for step in 1..=depth {
        let at = first + if is_rising { step - 1 } else { depth - step };
        let next = place(1 + at / count, space, at % count);
        world.set_row(next, [4, permissions, places[places.len() - 1] + 1, step]);
        places.push(next);
    }
    (world, places)
}

#[test]
fn a_break_empties_a_place_and_all_below_it() {
    let changes: [fn(&mut [u32; 4], u32); 11] = [
        |row, _| row[2] = PLACES + 1,
        |row, _| row[2] += PLACES,
        |row, _| row[2] |= 1 << 16,
        |row, _| row[2] = u32::MAX,
        |row, own| row[2] = own + 1,
        // A null place, and one of another space.
        |row, _| row[2] = place(7, OBJECT, 255) + 1,
        |row, own| row[2] = place(0, if within(own).0 == IO { MEMORY } else { IO }, 4) + 1,
        |row, _| row[0] = 5,
        |row, _| row[1] |= 1 << 5,
        |row, _| row[3] += 1 << 31,
        |row, _| row[1] = 0,
    ];
    for space in [MEMORY, IO, OBJECT] {
        for is_rising in [true, false] {
            let (world, places) = line(space, DEPTH_LIMIT, is_rising);
            assert_eq!(damage(&world.places, &world.objects), None);
            for depth in 1..=DEPTH_LIMIT as usize {
                for change in changes {
                    let mut broken = world.clone();
                    let mut row = world.row(places[depth]);
                    change(&mut row, places[depth]);
                    broken.set_row(places[depth], row);
                    let mut below = places[depth..].to_vec();
                    below.sort();
                    assert_eq!(emptied(&broken), below, "space {space}: {row:?}");
                    let lost = (LONGEST - depth) as u32 - u32::from(row[1] == 0);
                    assert_eq!(operated(&broken).0, (Status::Success, lost));
                }
            }
        }
    }
}

#[test]
fn a_line_is_kept_as_far_as_depth_63() {
    for space in [MEMORY, IO, OBJECT] {
        for is_rising in [true, false] {
            for depth in [1, 62, 63, 64, 65, 100] {
                let (world, places) = line(space, depth, is_rising);
                let mut lost = places[LONGEST.min(places.len())..].to_vec();
                lost.sort();
                assert_eq!(emptied(&world), lost, "space {space}, depth {depth}");
                assert_eq!(operated(&world).0, (Status::Success, lost.len() as u32));
                holds(&world);
            }
        }
    }
}

#[test]
fn a_parent_that_is_lost_takes_its_descendants_along() {
    for space in [MEMORY, IO, OBJECT] {
        let (world, places) = line(space, 9, true);
        for depth in 1..9 {
            let mut broken = world.clone();
            broken.set_row(places[depth], NULL);
            assert_eq!(emptied(&broken), places[depth + 1..]);
            assert_eq!(operated(&broken).0, (Status::Success, 9 - depth as u32));
        }
    }
}

#[test]
fn an_empty_place_is_no_parent_even_if_its_words_fit() {
    // Resource 0 and depth 0 are those of an empty place.
    for space in [MEMORY, IO, OBJECT] {
        let [parent, child] = [20, 10].map(|selector| place(1, space, selector));
        let mut world = World::listed();
        world.set_row(child, [0, 1, parent + 1, 1]);
        let bytes = dump_of(&world).bytes();
        assert_eq!(dump::line(&bytes), format!("11 place {child}\n"));
        assert_eq!(emptied(&world), [child]);
        // With words left it is rule 10 that is broken first.
        world.set_row(child, [4, 1, parent + 1, 1]);
        world.set_row(parent, [4, 0, 0, 0]);
        let bytes = dump_of(&world).bytes();
        assert_eq!(dump::line(&bytes), format!("10 place {parent}\n"));
        assert_eq!(emptied(&world), [child, parent]);
        assert_eq!(operated(&world).0, (Status::Success, 1));
    }
}

#[test]
fn a_cycle_goes_with_all_that_leads_into_it() {
    for space in [MEMORY, IO, OBJECT] {
        let (world, places) = line(space, 40, false);
        for (first, last) in [(1, 1), (1, 2), (1, 3), (1, 40), (5, 5), (5, 6), (7, 20)] {
            let mut broken = world.clone();
            let mut row = world.row(places[first]);
            row[2] = places[last] + 1;
            broken.set_row(places[first], row);
            let mut lost = places[first..].to_vec();
            lost.sort();
            assert_eq!(emptied(&broken), lost, "from {first} to {last}");
            // With equal depths more than one link is broken.
            for &number in &places[first..=last] {
                let mut row = broken.row(number);
                row[3] = 1;
                broken.set_row(number, row);
            }
            assert_eq!(emptied(&broken), lost, "from {first} to {last}");
        }
    }
}

#[test]
fn depths_do_not_wrap() {
    let mut world = World::listed();
    world.set_row(384, [0, 7, 1, u32::MAX]);
    world.set_row(385, [0, 7, 385, 0]);
    world.set_row(386, [0, 7, 386, 1]);
    assert_eq!(emptied(&world), [384, 385, 386]);
    // Each is one deeper than the one above it, but none comes from depth 0.
    let mut world = World::listed();
    world.set_row(384, [0, 7, 388, u32::MAX - 1]);
    for step in 1..4 {
        let depth = (u32::MAX - 1).wrapping_add(step);
        world.set_row(384 + step, [0, 7, 384 + step, depth]);
    }
    assert_eq!(emptied(&world), [384, 385, 386, 387]);
}

// Domain 0.

#[test]
fn a_live_place_of_domain_0_stays_whatever_it_breaks() {
    let (world, places) = line(MEMORY, 5, true);
    // The line below it goes, for its own fault or that of the first place.
    for row in [
        [4, 7, 5, 0],
        [4, 7, 9, 0],
        [4, 7, PLACES + 1, 0],
        [4, 7, u32::MAX, 0],
        [4, 15, 0, 0],
        [4, u32::MAX, 0, 0],
        [4, 7, 0, 1],
        [4, 7, 0, 64],
        [4, 3, 0, 0],
        [5, 7, 0, 0],
        [64, 7, 0, 0],
        [4, 7, places[5] + 1, 0],
        [4, 7, places[5] + 1, 6],
    ] {
        let mut broken = world.clone();
        broken.set_row(4, row);
        assert_eq!(emptied(&broken), places[1..], "{row:?}");
        let breach = Damage {
            rule: 2,
            at: Location::Place(4),
        };
        let after = repaired_world(&broken);
        assert_eq!(damage(&after.places, &after.objects), Some(breach));
        assert_eq!(operated(&broken).0, (Status::Damaged, 0));
        holds(&broken);
    }
    // A place that boot leaves null, and one that gets more than boot's: neither has heirs.
    for (number, row) in [
        (200, [28, 31, 0, 0]),
        (200, [63, 1, 0, 0]),
        (383, [4, 1, 383, 64]),
        (64, [0, 9, 0, 0]),
        (130, [2, 3, 0, 0]),
    ] {
        let mut broken = world.clone();
        broken.set_row(number, row);
        assert!(emptied(&broken).is_empty());
        assert_eq!(operated(&broken).0, (Status::Damaged, 0));
        holds(&broken);
    }
}

#[test]
fn what_descends_from_a_place_that_breaks_rule_2_alone_stays() {
    let mut world = World::listed();
    // Another page, fewer permissions, and an object place more.
    world.set_row(4, [9, 2, 0, 0]);
    world.set_row(384, [9, 2, 5, 1]);
    world.set_row(385, [9, 2, 385, 2]);
    world.set_row(300, [28, 31, 0, 0]);
    world.set_row(600, [28, 30, 301, 1]);
    world.set_row(601, [28, 2, 601, 2]);
    assert!(emptied(&world).is_empty());
    assert_eq!(operated(&world).0, (Status::Damaged, 0));
    holds(&world);
}

#[test]
fn a_line_may_pass_through_domain_0() {
    // From the root's PD through a place of domain 0 back to the root.
    let mut world = World::listed();
    world.set_row(600, [28, 31, 545, 1]);
    world.set_row(300, [28, 31, 601, 2]);
    world.set_row(601, [28, 31, 301, 3]);
    world.set_row(602, [28, 1, 602, 4]);
    assert!(emptied(&world).is_empty());
    holds(&world);
    // Where the line breaks above it, the place of domain 0 stays without its parent, and what
    // descends from it goes, also where it breaks rule 2 alone.
    for row in [[28, 31, 545, 2], [28, 31, PLACES + 1, 1]] {
        world.set_row(600, row);
        assert_eq!(emptied(&world), [600, 601, 602]);
        holds(&world);
    }
    // Where it breaks at that place, what is above it stays.
    world.set_row(600, [28, 31, 545, 1]);
    world.set_row(300, [28, 31, 601, 3]);
    assert_eq!(emptied(&world), [601, 602]);
    holds(&world);
    // Where that place is null, with words left or not, it is empty afterwards.
    for (row, also) in [([28, 0, 601, 2], true), (NULL, false)] {
        world.set_row(300, row);
        let lost = if also {
            &[300, 601, 602][..]
        } else {
            &[601, 602]
        };
        assert_eq!(emptied(&world), lost);
        assert_eq!(operated(&world).0, (Status::Success, 2));
        holds(&world);
    }
    // A line that ends in domain 0 too deep.
    let (mut world, places) = line(OBJECT, 63, true);
    world.set_row(383, [4, 3, places[63] + 1, 64]);
    world.set_row(600 + 150, [4, 3, 384, 65]);
    assert_eq!(emptied(&world), [750]);
    holds(&world);
}

#[test]
fn words_left_in_null_places_go() {
    for number in [156, 200, 383, 384, 511, 1000, 2815, 3071] {
        for row in [
            [1, 0, 0, 0],
            [0, 0, 1, 0],
            [0, 0, 0, 1],
            [u32::MAX, 0, u32::MAX, u32::MAX],
            [28, 0, 545, 1],
        ] {
            let mut world = World::listed();
            world.set_row(number, row);
            assert_eq!(emptied(&world), [number]);
            let (reply, after) = operated(&world);
            assert_eq!(reply, (Status::Success, 0));
            assert!(after == World::listed());
        }
    }
    // Where boot has a capability, the words go and the tables stay damaged.
    for number in [0, 5, 61, 64, 130, 155] {
        let mut world = World::listed();
        let [resource, _, parent, _] = listed_row(number);
        world.set_row(number, [resource, 0, parent, 7]);
        assert_eq!(emptied(&world), [number]);
        assert_eq!(operated(&world).0, (Status::Damaged, 0));
        holds(&world);
    }
}

// Records.

#[test]
fn a_place_of_a_record_that_permits_nothing_is_emptied() {
    for kind in [0, 6, 7, 31, 32, 255, 256, 261, 1 << 31 | 5, u32::MAX] {
        let mut world = World::listed();
        world.does(CREATE_SM, ROOT_EC, &[40, 32, 0]);
        world.set_row(600, [31, 1, 553, 1]);
        world.set_row(601, [31, 1, 601, 2]);
        holds(&world);
        world.set_record(31, [kind, 0, 0, 0, 0]);
        assert_eq!(emptied(&world), [552, 600, 601], "kind {kind}");
        let reply = match kind {
            0 => (Status::Success, 3),
            _ => (Status::Damaged, 0),
        };
        assert_eq!(operated(&world).0, reply);
        holds(&world);
    }
}

#[test]
fn a_domain_has_the_pd_that_the_records_tell() {
    let mut world = World::listed();
    world.does(CREATE_PD, ROOT_EC, &[40, 32, 0]);
    let [own, other] = [place(2, MEMORY, 3), place(5, MEMORY, 3)];
    world.set_row(own, [3, 7, 4, 1]);
    world.set_row(other, [3, 7, 4, 1]);
    assert_eq!(emptied(&world), [other]);
    // Another domain's number, in a record that breaks rules.
    world.set_record(31, [1, 5, 9, 9, 9]);
    assert_eq!(emptied(&world), [own]);
    holds(&world);
    world.set_record(63, [1, 2, 0, 0, 0]);
    assert!(emptied(&world).is_empty());
    holds(&world);
    // The root's PD has another domain: all that the root has goes.
    world.set_record(28, [1, 4, 0, 0, 0]);
    assert_eq!(emptied(&world), [446, 447, 544, 545, 546, 552]);
    holds(&world);
    // A PD of domain 0 or of none, and a record that is no PD.
    for (number, record) in [
        (31, [1, 0, 0, 0, 0]),
        (31, [1, 8 + 5, 0, 0, 0]),
        (31, [2, 5, 0, 0, 0]),
        (31, [1 << 8 | 1, 5, 0, 0, 0]),
    ] {
        let mut world = World::listed();
        world.set_record(number, record);
        world.set_row(other, [3, 7, 4, 1]);
        assert_eq!(emptied(&world), [other], "{record:?}");
        holds(&world);
    }
}

#[test]
fn other_broken_records_empty_nothing() {
    for (number, record) in [
        (0, [3, 64, 0, 0, 1]),
        (4, [5, 1, 0, 0, 1]),
        (10, [3, 29, 1, 1, 0]),
        (29, [2, 9, 9, 999, 9]),
        (30, [3, 99, 0, 0, 0]),
        (31, [5, 0, 0, 7, 0]),
        (32, [5, 0, 0, 0, 0]),
        (31, [2, 0, 9, 0, 0]),
        (31, [3, 29, 0, 10, 0]),
        (31, [4, 28, 0, 0, 0]),
    ] {
        let mut world = World::listed();
        world.set_record(number, record);
        let expected: &[u32] = &[];
        assert_eq!(emptied(&world), expected, "record {number}: {record:?}");
        assert_eq!(operated(&world).0, (Status::Damaged, 0));
        holds(&world);
    }
}

// Generated dumps.

#[test]
fn the_claims_hold_for_every_sort() {
    let stock = Stock::new(17);
    let mut random = Random::new(170);
    for sort in Sort::ALL {
        for _ in 0..15 {
            let bytes = damaged(&mut random, &stock, &[sort]);
            is_inspected(&mut random, &bytes);
        }
    }
}

#[test]
fn the_claims_hold_for_random_dumps() {
    let mut random = Random::new(171);
    for seed in 0..5 {
        let stock = Stock::new(seed);
        for _ in 0..240 {
            let made = dump(&mut random, &stock);
            is_inspected(&mut random, &made.bytes);
        }
    }
}

/// Words without any regard to the tables, in all of them.
#[test]
fn tables_of_any_words_are_repaired_as_far_as_it_goes() {
    let mut random = Random::new(173);
    for _ in 0..40 {
        let shift = random.below(32);
        let mut words = |count: usize| (0..count).map(|_| random.word() >> shift).collect();
        let world = World {
            places: words(12_288),
            objects: words(320),
        };
        holds(&world);
        assert_eq!(operated(&world).0, (Status::Damaged, 0));
    }
}

#[test]
#[ignore = "the program inspect is still to be built"]
fn the_program_writes_the_output_of_its_dumps() {
    let program = Path::new(env!("CARGO_MANIFEST_DIR")).join("../crates/inspect");
    let words = fs::read_to_string(program.join("args")).expect("readable arguments");
    let mut input = fs::read(program.join("stdin")).expect("a readable input");
    let mut arguments: Vec<&str> = words.lines().collect();
    if arguments.is_empty() {
        arguments.push("-");
    }
    let mut expected = Vec::new();
    for argument in arguments {
        let bytes = match argument {
            // A second time nothing is left of the input.
            "-" => Ok(std::mem::take(&mut input)),
            name => fs::read(program.join("data").join(name)),
        };
        // Nothing is written for a file that cannot be read.
        if let Ok(bytes) = bytes {
            expected.extend(dump::output(&bytes));
        }
    }
    let stored = fs::read(program.join("stdout")).expect("stored output");
    assert!(stored == expected, "crates/inspect/stdout differs");
}
