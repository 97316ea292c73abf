//! Random dumps: sound tables that journals reached, into which lines of descent
//! are drawn, and which are then damaged in the ways that a repair must tell
//! apart. Most damages come with places above and below them.

use std::ops::Range;

use crate::boot::{HYPERVISOR_PLACES, ROOT_PD, ROOT_SC};
use crate::dump::{Dump, BYTES};
use crate::generator::{journal, Kind};
use crate::journal::{Machine, Replay, Step};
use crate::layout::{
    CPUS, DEPTH_LIMIT, DOMAINS, DOMAIN_PLACES, FRAMES, OBJECTS, OBJECT_WIDTH, PLACES, PLACE_WIDTH,
    PRIORITY_LIMIT, QUANTUM_LIMIT, SPACE_START,
};
use crate::random::Random;
use crate::tables::{
    ObjectKind, ObjectRow, Place, PlaceRow, Space, FREE, NAMED_WORDS, NULL_PLACE,
    OBJECT_PERMISSIONS,
};

const PD: u32 = ObjectKind::Pd as u32;
const EC: u32 = ObjectKind::Ec as u32;
const SC: u32 = ObjectKind::Sc as u32;
const PT: u32 = ObjectKind::Pt as u32;
const SM: u32 = ObjectKind::Sm as u32;

/// Records of each journal that the stock is made by.
const JOURNAL_RECORDS: usize = 120;

/// Journals of each kind that the stock is made by.
const JOURNALS: u64 = 2;

/// Sound tables, to be damaged.
pub struct Stock(Vec<Machine>);

impl Stock {
    /// Boot's tables, and those after random journals of every kind.
    pub fn new(seed: u64) -> Stock {
        let seeds = (0..JOURNALS).map(|number| seed.wrapping_mul(JOURNALS).wrapping_add(number));
        let journals = seeds.flat_map(|seed| Kind::ALL.map(|kind| (kind, seed)));
        let grown = journals.map(|(kind, seed)| {
            let bytes = journal(kind, seed, JOURNAL_RECORDS);
            let mut replay = Replay::new(&bytes);
            while let Step::Ran(..) = replay.step() {}
            replay.machine
        });
        Stock([Machine::boot()].into_iter().chain(grown).collect())
    }

    /// Some of the tables.
    fn tables(&self, random: &mut Random) -> Tables {
        Tables::of(&self.0[random.below(self.0.len() as u32) as usize])
    }
}

/// A dump, or bytes of a wrong length, with the sorts of damage that were done, in their order.
#[derive(Clone, PartialEq, Eq, Debug)]
pub struct Made {
    pub sorts: Vec<Sort>,
    pub bytes: Vec<u8>,
}

/// A dump with a damage of any sort, at times with several.
pub fn dump(random: &mut Random, stock: &Stock) -> Made {
    let count = if random.percent(35) {
        2 + random.below(3)
    } else {
        1
    };
    let sorts: Vec<Sort> = (0..count).filter_map(|_| random.pick(&Sort::ALL)).collect();
    let bytes = damaged(random, stock, &sorts);
    Made { sorts, bytes }
}

/// A dump with damages of these sorts.
pub fn damaged(random: &mut Random, stock: &Stock, sorts: &[Sort]) -> Vec<u8> {
    let mut tables = stock.tables(random);
    // Sound lines make more to keep and more to damage.
    for _ in 0..random.below(3) {
        tables.line(random);
    }
    for sort in sorts {
        sort.apply(random, &mut tables);
    }
    let mut bytes = tables.dump().bytes();
    for sort in sorts {
        sort.resize(random, &mut bytes);
    }
    bytes
}

/// What is wrong with a dump.
#[derive(Clone, Copy, PartialEq, Eq, PartialOrd, Ord, Debug)]
pub enum Sort {
    /// Nothing.
    Sound,
    /// A null place outside domain 0 has words left, or one of domain 0.
    LeftOver,
    HypervisorLeftOver,
    /// A place is its own parent.
    OwnParent,
    /// Two places are each other's parents.
    PairCycle,
    /// Three or more places go round.
    LongCycle,
    /// A parent word is past the table.
    ParentPast,
    /// A parent is null: another place, or the same one emptied, wholly or of permissions alone.
    ParentNull,
    ParentEmptied,
    /// A parent is in another space.
    OtherSpace,
    /// A resource is not the parent's, or past the last one.
    OtherResource,
    ResourcePast,
    /// A depth is not the parent's plus 1.
    OtherDepth,
    /// Depths above 63 that come from none.
    HugeDepth,
    /// Permissions are above the parent's, or above the greatest.
    AboveParent,
    AboveGreatest,
    /// A place has no parent and must have one, or is not at depth 0.
    Orphan,
    /// A place is in a domain without a PD.
    NoDomain,
    /// A line goes on below depth 63.
    TooDeep,
    /// A live place of domain 0 is another, so that only rule 2 is broken.
    HypervisorChanged,
    /// A null place of domain 0 is live, so that only rule 2 is broken.
    HypervisorGained,
    /// A live place of domain 0 is null.
    HypervisorLost,
    /// A live place of domain 0 breaks rule 11, with places below it that keep it.
    HypervisorBroken,
    /// A place of domain 0 is part of a line; the line may be broken or too deep.
    HypervisorInLine,
    /// A record is another that boot made, or an interrupt's is no semaphore.
    BootRecord,
    Interrupt,
    /// A record has a kind above 5, or a word that is not named.
    KindAbove,
    UnnamedWord,
    /// A record that places name is freed.
    Freed,
    /// A free record has words left, or used ones follow it.
    Gap,
    /// A PD has another domain.
    Numbering,
    /// An EC, an SC or a PT has a word that is out of its bounds.
    Context,
    Scheduling,
    Portal,
    /// Some words are others.
    Words,
    /// Places are moved, copied or cleared.
    Rows,
    /// Most words are any.
    Noise,
    /// There are fewer bytes than a dump has, or more.
    Short,
    Long,
}

impl Sort {
    pub const ALL: [Sort; 39] = [
        Sort::Sound,
        Sort::LeftOver,
        Sort::HypervisorLeftOver,
        Sort::OwnParent,
        Sort::PairCycle,
        Sort::LongCycle,
        Sort::ParentPast,
        Sort::ParentNull,
        Sort::ParentEmptied,
        Sort::OtherSpace,
        Sort::OtherResource,
        Sort::ResourcePast,
        Sort::OtherDepth,
        Sort::HugeDepth,
        Sort::AboveParent,
        Sort::AboveGreatest,
        Sort::Orphan,
        Sort::NoDomain,
        Sort::TooDeep,
        Sort::HypervisorChanged,
        Sort::HypervisorGained,
        Sort::HypervisorLost,
        Sort::HypervisorBroken,
        Sort::HypervisorInLine,
        Sort::BootRecord,
        Sort::Interrupt,
        Sort::KindAbove,
        Sort::UnnamedWord,
        Sort::Freed,
        Sort::Gap,
        Sort::Numbering,
        Sort::Context,
        Sort::Scheduling,
        Sort::Portal,
        Sort::Words,
        Sort::Rows,
        Sort::Noise,
        Sort::Short,
        Sort::Long,
    ];

    /// Damages tables in this way; where they have no room for it they stay as they are.
    pub fn apply(self, random: &mut Random, tables: &mut Tables) {
        match self {
            Sort::Sound | Sort::Short | Sort::Long => {}
            Sort::LeftOver => tables.leave_words(random, HYPERVISOR_PLACES..PLACES),
            Sort::HypervisorLeftOver => tables.leave_words(random, 0..HYPERVISOR_PLACES),
            Sort::OwnParent => {
                let spot = tables.spot(random);
                tables.places[spot.place][2] = parent_word(spot.place);
            }
            Sort::PairCycle => tables.close(random, 2),
            Sort::LongCycle => {
                let length = if random.percent(50) { 3 } else { usize::MAX };
                tables.close(random, length);
            }
            Sort::ParentPast => {
                let spot = tables.spot(random);
                let word = &mut tables.places[spot.place][2];
                *word = past_parent(random, *word);
            }
            Sort::ParentNull => {
                let spot = tables.spot(random);
                let space = space_of(spot.place);
                if let Some(null) = random.pick(&tables.null_places(space)) {
                    tables.places[spot.place][2] = parent_word(null);
                }
            }
            Sort::ParentEmptied => {
                let spot = tables.spot(random);
                if random.percent(50) {
                    tables.places[spot.place][1] = 0;
                } else {
                    tables.places[spot.place] = NULL_PLACE;
                }
            }
            Sort::OtherSpace => tables.cross(random),
            Sort::OtherResource => {
                let spot = tables.spot(random);
                let other = match random.below(3) {
                    0 => random.below(FRAMES),
                    _ => tables.places[spot.place][0] ^ 1,
                };
                for &place in spot.some_from(random) {
                    tables.places[place][0] = other;
                }
            }
            Sort::ResourcePast => {
                let spot = tables.spot(random);
                let past = match random.below(4) {
                    0 => tables.places[spot.place][0] | 1 << 31,
                    1 => FRAMES.max(random.word()),
                    2 => FRAMES + random.below(FRAMES),
                    _ => FRAMES,
                };
                for &place in spot.some_from(random) {
                    tables.places[place][0] = past;
                }
            }
            Sort::OtherDepth => {
                let spot = tables.spot(random);
                let by = match random.below(6) {
                    0 => 2,
                    1 => 1 + random.below(DEPTH_LIMIT),
                    2 | 3 => 1,
                    _ => u32::MAX, // one less
                };
                tables.sink(random, &spot, by);
            }
            Sort::HugeDepth => {
                let spot = tables.spot(random);
                let depth = tables.places[spot.place][3];
                let by = match random.below(4) {
                    0 => u32::MAX - depth,
                    1 => 1 << 31,
                    2 => DEPTH_LIMIT + 1 + random.below(200),
                    _ => random.word() | 1 << 16,
                };
                tables.sink(random, &spot, by);
            }
            Sort::AboveParent => tables.exceed_parent(random),
            Sort::AboveGreatest => {
                let spot = tables.spot(random);
                let bit = 1 << [5, 6, 31, 3 + random.below(29)][random.below(4) as usize];
                for &place in spot.some_from(random) {
                    tables.places[place][1] |= bit;
                }
            }
            Sort::Orphan => {
                let spot = tables.spot(random);
                tables.places[spot.place][2] = 0;
                if random.percent(60) {
                    let depth = tables.places[spot.place][3];
                    tables.sink(random, &spot, depth.wrapping_neg());
                }
            }
            Sort::NoDomain => tables.leave_domains(random),
            Sort::TooDeep => {
                let space = some_space(random);
                let from = tables.origin(random, space);
                let below = match random.below(3) {
                    0 => 2 + random.below(40),
                    _ => 1,
                };
                tables.draw(random, from, (DEPTH_LIMIT + below) as usize);
            }
            Sort::HypervisorChanged => tables.change_hypervisor(random),
            Sort::HypervisorGained => {
                let Some(place) = tables.null_hypervisor_place(random) else {
                    return;
                };
                let object = random.below(ROOT_SC + 1);
                let kind = tables.objects[object as usize][0] as usize;
                let greatest = OBJECT_PERMISSIONS.get(kind).copied().unwrap_or(0);
                tables.places[place] = [object, greatest & random.below(32) | 1, 0, 0];
                tables.draw_some(random, place, 1..6);
            }
            Sort::HypervisorLost => {
                let line = tables.hypervisor_line(random);
                if random.percent(50) {
                    tables.places[line[0]][1] = 0;
                } else {
                    tables.places[line[0]] = NULL_PLACE;
                }
            }
            Sort::HypervisorBroken => tables.break_hypervisor(random),
            Sort::HypervisorInLine => tables.pass_hypervisor(random),
            Sort::BootRecord => {
                let number = [random.below(CPUS), ROOT_PD + random.below(3)];
                let record = &mut tables.objects[number[random.below(2) as usize] as usize];
                match random.below(4) {
                    0 => *record = [FREE; OBJECT_WIDTH],
                    1 => record[0] = random.below(8),
                    _ => record[1 + random.below(4) as usize] ^= 1 << random.below(32),
                }
            }
            Sort::Interrupt => {
                let number = CPUS + random.below(ROOT_PD - CPUS);
                let kinds = [FREE, PD, EC, SC, PT, 6, random.word()];
                let kind = random.pick(&kinds).unwrap_or_default();
                tables.objects[number as usize][0] = kind;
                tables.hold(random, number);
            }
            Sort::KindAbove => {
                let number = tables.later_record(random);
                let kinds = [6, 7, 8, 1 << 8, 1 << 31, u32::MAX, 5 + random.below(90)];
                let kind = random.pick(&kinds).unwrap_or_default();
                tables.objects[number as usize][0] = kind;
                tables.hold(random, number);
            }
            Sort::UnnamedWord => {
                let number = tables.later_record(random);
                let record = &mut tables.objects[number as usize];
                if record[0] == PT {
                    *record = [SM, 0, 0, 0, 0];
                }
                let named = NAMED_WORDS.get(record[0] as usize).copied().unwrap_or(1);
                let word = named + random.below((OBJECT_WIDTH - named) as u32) as usize;
                record[word] = 1 << random.below(32);
            }
            Sort::Freed => {
                let last = tables.used().saturating_sub(1);
                let number = match random.below(2) {
                    0 if last > ROOT_SC => last,
                    _ => tables.later_record(random),
                };
                tables.hold(random, number);
                tables.objects[number as usize] = [FREE; OBJECT_WIDTH];
            }
            Sort::Gap => {
                let free = tables.used().min(OBJECTS as u32 - 1);
                let number = free + random.below(OBJECTS as u32 - free);
                let record = &mut tables.objects[number as usize];
                match random.below(3) {
                    0 => *record = [FREE, 0, 0, 0, 1 << random.below(32)],
                    1 => *record = [FREE, random.below(9), 1, 0, 0],
                    // A used record after a free one, if there is one between.
                    _ if number > free => *record = [SM, random.word(), 0, 0, 0],
                    _ => tables.objects[number as usize - 1] = [FREE; OBJECT_WIDTH],
                }
            }
            Sort::Numbering => {
                let number = tables.record_of(random, PD);
                let domains = [0, 1, DOMAINS, u32::MAX, random.below(DOMAINS + 2)];
                let domain = random.pick(&domains).unwrap_or_default();
                tables.objects[number as usize][1] = domain;
            }
            Sort::Context => {
                let number = tables.record_of(random, EC);
                let (word, value) = match random.below(4) {
                    0 => (1, 0),
                    1 => (1, DOMAINS + random.below(3)),
                    2 => (2, CPUS + (random.word() >> random.below(32))),
                    _ => (3, Space::Object.selectors() << random.below(20)),
                };
                tables.objects[number as usize][word] = value;
            }
            Sort::Scheduling => {
                let number = tables.record_of(random, SC);
                let (word, value) = match random.below(5) {
                    0 => (1, ROOT_PD),
                    1 => (1, OBJECTS as u32 + random.below(9)),
                    2 => (2, 0),
                    3 => (2, PRIORITY_LIMIT + 1),
                    _ => (3, (QUANTUM_LIMIT + 1) * random.below(2)),
                };
                tables.objects[number as usize][word] = value;
            }
            Sort::Portal => {
                let number = tables.record_of(random, PT);
                let ecs = [0, ROOT_PD, ROOT_SC, OBJECTS as u32, u32::MAX];
                let ec = random.pick(&ecs).unwrap_or_default();
                tables.objects[number as usize][1] = ec;
            }
            Sort::Words => {
                for _ in 0..1 + random.below(12) {
                    tables.change_word(random);
                }
            }
            Sort::Rows => {
                for _ in 0..1 + random.below(6) {
                    let [from, to] = [(); 2].map(|_| tables.some_live(random));
                    match random.below(4) {
                        0 => tables.places.swap(from, to),
                        1 => tables.places[to] = NULL_PLACE,
                        2 => tables.places[to] = tables.places[from],
                        _ => {
                            let to = random.below(PLACES as u32) as usize;
                            tables.places[to] = tables.places[from];
                        }
                    }
                }
            }
            Sort::Noise => {
                let (share, shift) = (1 + random.below(100), random.below(32));
                let first = HYPERVISOR_PLACES * random.below(2) as usize;
                for row in &mut tables.places[first..] {
                    if random.percent(share) {
                        *row = [(); PLACE_WIDTH].map(|_| random.word() >> shift);
                    }
                }
                if random.percent(50) {
                    for row in &mut tables.objects {
                        if random.percent(share) {
                            *row = [(); OBJECT_WIDTH].map(|_| random.word() >> shift);
                            row[0] %= 8;
                        }
                    }
                }
            }
        }
    }

    /// Gives bytes a wrong length, if that is the damage.
    pub fn resize(self, random: &mut Random, bytes: &mut Vec<u8>) {
        match self {
            Sort::Short => {
                let length = match random.below(6) {
                    0 | 1 => 0,
                    2 => BYTES - 1,
                    3 => BYTES - 4,
                    4 => BYTES - OBJECTS * OBJECT_WIDTH * 4,
                    _ => random.below(BYTES as u32) as usize,
                };
                bytes.truncate(length);
            }
            Sort::Long => {
                let more = match random.below(4) {
                    0 => 1,
                    1 => 4,
                    2 => 1 + random.below(400) as usize,
                    _ => BYTES,
                };
                bytes.extend((0..more).map(|_| random.word() as u8));
            }
            _ => {}
        }
    }
}

/// A place of a line that is to be damaged, and the places of the line below it.
struct Spot {
    place: usize,
    below: Vec<usize>,
    /// The place and those below it.
    with_below: Vec<usize>,
}

impl Spot {
    /// The place, mostly with those below it.
    fn some_from(&self, random: &mut Random) -> &[usize] {
        if random.percent(70) {
            &self.with_below
        } else {
            &self.with_below[..1]
        }
    }
}

/// Both tables, row by row.
#[derive(Clone)]
pub struct Tables {
    pub places: Vec<PlaceRow>,
    pub objects: Vec<ObjectRow>,
}

fn parent_word(place: usize) -> u32 {
    place as u32 + 1
}

fn space_of(place: usize) -> Space {
    Place::from_number(place as u32).map_or(Space::Object, Place::space)
}

fn some_space(random: &mut Random) -> Space {
    Space::ALL[random.below(3) as usize]
}

/// A parent word that names no place; at times only its upper part is wrong.
fn past_parent(random: &mut Random, word: u32) -> u32 {
    let first = PLACES as u32 + 1;
    match random.below(6) {
        0 => first,
        1 => u32::MAX - random.below(2),
        2 => first + random.below(DOMAIN_PLACES),
        3 => first.max(word.wrapping_add(PLACES as u32)),
        4 => word | 1 << (16 + random.below(16)),
        _ => first.max(random.word()),
    }
}

impl Tables {
    pub fn of(machine: &Machine) -> Tables {
        Tables {
            places: machine.places.as_chunks().0.to_vec(),
            objects: machine.objects.as_chunks().0.to_vec(),
        }
    }

    pub fn dump(&self) -> Dump {
        Dump {
            places: self.places.as_flattened().to_vec(),
            objects: self.objects.as_flattened().to_vec(),
        }
    }

    // What the tables hold.

    fn has_pd(&self, domain: u32) -> bool {
        let mut pds = self.objects.iter().filter(|record| record[0] == PD);
        pds.any(|record| record[1] == domain)
    }

    /// Numbers of the places of a space in the domains above 0 that have a PD, or have none.
    fn outside(&self, space: Space, with_pd: bool) -> Vec<usize> {
        let domains = (1..DOMAINS).filter(|&domain| self.has_pd(domain) == with_pd);
        domains
            .flat_map(|domain| {
                let first = domain * DOMAIN_PLACES + SPACE_START[space as usize];
                first as usize..(first + space.selectors()) as usize
            })
            .collect()
    }

    /// The places of a space in domains with a PD that have no word left.
    fn null_places(&self, space: Space) -> Vec<usize> {
        let mut places = self.outside(space, true);
        places.retain(|&place| self.places[place] == NULL_PLACE);
        places
    }

    /// A place that is live, mostly outside domain 0, or any if none was found soon.
    fn some_live(&self, random: &mut Random) -> usize {
        let first = if random.percent(8) { 0 } else { DOMAIN_PLACES };
        let any = |random: &mut Random| (first + random.below(PLACES as u32 - first)) as usize;
        let mut place = any(random);
        for _ in 0..400 {
            if self.places[place][1] != 0 {
                break;
            }
            place = any(random);
        }
        place
    }

    /// An object place of domain 0 that is null at boot and now.
    fn null_hypervisor_place(&self, random: &mut Random) -> Option<usize> {
        let first = (SPACE_START[2] + ROOT_PD) as usize;
        let null = (first..HYPERVISOR_PLACES).filter(|&place| self.places[place] == NULL_PLACE);
        random.pick(&null.collect::<Vec<usize>>())
    }

    /// How many records come before the first free one.
    fn used(&self) -> u32 {
        let free = self.objects.iter().position(|record| record[0] == FREE);
        free.unwrap_or(OBJECTS) as u32
    }

    // Making what is to be damaged.

    /// A live place of a space that may begin a line: one of domain 0, at times an object place
    /// of another domain that has no parent.
    fn origin(&self, random: &mut Random, space: Space) -> usize {
        if space == Space::Object && random.percent(60) {
            let mut own = self.outside(space, true);
            own.retain(
                |&place| matches!(self.places[place], [_, permissions, 0, 0] if permissions != 0),
            );
            if let Some(place) = random.pick(&own) {
                return place;
            }
        }
        self.hypervisor_origin(random, space)
    }

    /// A place of domain 0 that is live at boot.
    fn hypervisor_origin(&self, random: &mut Random, space: Space) -> usize {
        let (start, count) = match space {
            Space::Object => (SPACE_START[2], ROOT_PD),
            _ => (SPACE_START[space as usize], FRAMES),
        };
        (start + random.below(count)) as usize
    }

    /// Draws a line of so many places below a place, as far as there is room: the place, and
    /// each that now descends from the one before it.
    fn draw(&mut self, random: &mut Random, from: usize, count: usize) -> Vec<usize> {
        let mut null = self.null_places(space_of(from));
        let in_order = random.percent(40);
        let mut line = vec![from];
        let mut row = self.places[from];
        while line.len() <= count && !null.is_empty() {
            let last = line[line.len() - 1];
            let next = if in_order {
                null.remove(0)
            } else {
                null.swap_remove(random.below(null.len() as u32) as usize)
            };
            let fewer = row[1] & random.word();
            if fewer != 0 && random.percent(8) {
                row[1] = fewer;
            }
            row[2] = parent_word(last);
            row[3] = row[3].wrapping_add(1);
            self.places[next] = row;
            line.push(next);
        }
        line
    }

    /// Draws a line of some places.
    fn draw_some(&mut self, random: &mut Random, from: usize, counts: Range<u32>) {
        let count = counts.start + random.below(counts.end - counts.start);
        self.draw(random, from, count as usize);
    }

    /// A line down to some depth of at most 63, with its first place.
    fn line(&mut self, random: &mut Random) -> Vec<usize> {
        let space = some_space(random);
        self.line_in(random, space)
    }

    fn line_in(&mut self, random: &mut Random, space: Space) -> Vec<usize> {
        let from = self.origin(random, space);
        self.line_from(random, from)
    }

    fn line_from(&mut self, random: &mut Random, from: usize) -> Vec<usize> {
        let count = match random.below(6) {
            0 => DEPTH_LIMIT - random.below(2),
            1 => 8 + random.below(DEPTH_LIMIT - 8),
            _ => 3 + random.below(6),
        };
        self.draw(random, from, count as usize)
    }

    /// A line that begins in domain 0.
    fn hypervisor_line(&mut self, random: &mut Random) -> Vec<usize> {
        let space = some_space(random);
        let from = self.hypervisor_origin(random, space);
        self.line_from(random, from)
    }

    /// A place of a new line, at its lower end, inside it or at its upper end.
    fn spot(&mut self, random: &mut Random) -> Spot {
        let space = some_space(random);
        self.spot_in(random, space)
    }

    fn spot_in(&mut self, random: &mut Random, space: Space) -> Spot {
        let line = self.line_in(random, space);
        let last = line.len() - 1;
        let at = match random.below(4) {
            0 => last,
            1 => last.min(1),
            _ => last.min(1 + random.below(last.max(1) as u32) as usize),
        };
        // A line without room below a place of domain 0 is that place alone.
        Spot {
            place: line[at],
            below: line[at + 1..].to_vec(),
            with_below: line[at..].to_vec(),
        }
    }

    /// Adds to the depth of a place, and mostly to those of the line below it.
    fn sink(&mut self, random: &mut Random, spot: &Spot, by: u32) {
        let places = if random.percent(65) {
            &spot.with_below[..]
        } else {
            &spot.with_below[..1]
        };
        for &place in places {
            self.places[place][3] = self.places[place][3].wrapping_add(by);
        }
    }

    // Damage to places.

    /// Gives a null place words beside its permissions.
    fn leave_words(&mut self, random: &mut Random, among: Range<usize>) {
        let null = among.filter(|&place| self.places[place] == NULL_PLACE);
        let Some(place) = random.pick(&null.collect::<Vec<usize>>()) else {
            return;
        };
        let mut row = match random.below(3) {
            0 => self.places[self.some_live(random)],
            1 => [(); PLACE_WIDTH].map(|_| random.below(64)),
            _ => NULL_PLACE,
        };
        row[1] = 0;
        if row == NULL_PLACE {
            row[[0, 2, 3][random.below(3) as usize]] = 1 << random.below(32);
        }
        self.places[place] = row;
    }

    /// Makes places of a line that follow one another, at most so many, each other's ancestors.
    fn close(&mut self, random: &mut Random, longest: usize) {
        let line = self.line(random);
        let outside = &line[1..];
        let length = longest.min(outside.len());
        let first = random.below((outside.len() - length) as u32 + 1) as usize;
        let cycle = &outside[first..first + length];
        if let [highest, .., lowest] = *cycle {
            self.places[highest][2] = parent_word(lowest);
            if random.percent(20) {
                for &place in cycle {
                    self.places[place][3] = 1;
                }
            }
        }
    }

    /// Gives a place a parent of another space that is otherwise good, and a line below it.
    fn cross(&mut self, random: &mut Random) {
        let space = some_space(random);
        let others = Space::ALL.map(|other| self.origin(random, other));
        let other = (space as usize + 1 + random.below(2) as usize) % 3;
        let [resource, permissions, _, depth] = self.places[others[other]];
        let Some(place) = random.pick(&self.null_places(space)) else {
            return;
        };
        let word = parent_word(others[other]);
        self.places[place] = [resource, permissions & 1, word, depth.wrapping_add(1)];
        self.draw_some(random, place, 0..4);
    }

    /// Gives a place a permission that its parent lacks and its resource allows, or takes it
    /// from the parent.
    fn exceed_parent(&mut self, random: &mut Random) {
        // A port has one permission alone.
        let space = [Space::Memory, Space::Object][random.below(2) as usize];
        let line = self.line_in(random, space);
        if line.len() < 3 {
            return;
        }
        let at = 2 + random.below(line.len() as u32 - 2) as usize;
        let bit = 1 << random.below(self.places[line[0]][1].count_ones().max(1));
        // The parent alone lacks it, or all between it and the line's first place.
        let first = if random.percent(50) { 1 } else { at - 1 };
        for &place in &line[first..at] {
            let left = self.places[place][1] & !bit;
            if left != 0 {
                self.places[place][1] = left;
            }
        }
        self.places[line[at]][1] |= bit;
    }

    /// Moves a place of a line into a domain without a PD.
    fn leave_domains(&mut self, random: &mut Random) {
        let spot = self.spot(random);
        let mut away = self.outside(space_of(spot.place), false);
        away.retain(|&place| self.places[place] == NULL_PLACE);
        let Some(place) = random.pick(&away) else {
            return;
        };
        self.places[place] = self.places[spot.place];
        self.places[spot.place] = NULL_PLACE;
        if let Some(&child) = spot.below.first() {
            self.places[child][2] = parent_word(place);
        }
    }

    /// Changes resource or permissions of a place of domain 0 and of all that descends from it.
    fn change_hypervisor(&mut self, random: &mut Random) {
        let line = self.hypervisor_line(random);
        let [resource, permissions, ..] = self.places[line[0]];
        let lowest = self.places[line[line.len() - 1]][1];
        let mask = lowest | random.word();
        let other = resource ^ 1;
        let mut changed = self.descendants(line[0]);
        changed.push(line[0]);
        if permissions & !mask != 0 {
            for place in changed {
                let row = &mut self.places[place];
                row[1] &= mask;
                if row[1] == 0 {
                    *row = NULL_PLACE;
                }
            }
        } else {
            for place in changed {
                self.places[place][0] = other;
            }
        }
    }

    /// The live places from which parents lead up to a place.
    fn descendants(&self, origin: usize) -> Vec<usize> {
        let parent = |&place: &usize| {
            let above = (self.places[place][2] as usize).checked_sub(1)?;
            (above < PLACES).then_some(above)
        };
        let is_below = |place: &usize| {
            // No line is longer than twice the greatest depth, but cycles have no end.
            std::iter::successors(parent(place), parent)
                .take(2 * DEPTH_LIMIT as usize)
                .any(|above| above == origin)
        };
        let live = (0..PLACES).filter(|&place| self.places[place][1] != 0);
        live.filter(|place| *place != origin && is_below(place))
            .collect()
    }

    /// Makes a place of domain 0 break rule 11, mostly so that those below it keep it.
    fn break_hypervisor(&mut self, random: &mut Random) {
        let line = self.hypervisor_line(random);
        let (first, last) = (line[0], line[line.len() - 1]);
        match random.below(7) {
            0 | 1 => {
                let by = 1 + random.below(3);
                for place in self.descendants(first) {
                    self.places[place][3] = self.places[place][3].wrapping_add(by);
                }
                self.places[first][3] = self.places[first][3].wrapping_add(by);
            }
            2 => self.places[first][1] |= 1 << (5 + random.below(27)),
            3 => self.places[first][2] = past_parent(random, self.places[first][2]),
            4 => self.places[first][2] = parent_word(last),
            5 => self.places[first][2] = parent_word(first),
            _ => {
                let null = self.null_places(space_of(first));
                let null = random.pick(&null).unwrap_or(first);
                self.places[first][2] = parent_word(null);
            }
        }
    }

    /// Draws a line through a place of domain 0, at times from a broken place or past depth 63.
    fn pass_hypervisor(&mut self, random: &mut Random) {
        let mut line = self.line(random);
        if random.percent(40) {
            let depth = self.places[line[line.len() - 1]][3];
            let more = DEPTH_LIMIT.saturating_sub(depth);
            let from = line[line.len() - 1];
            line.extend(&self.draw(random, from, more as usize)[1..]);
        }
        let last = line[line.len() - 1];
        let place = match space_of(last) {
            Space::Object => self.null_hypervisor_place(random),
            space => Some((SPACE_START[space as usize] + random.below(FRAMES)) as usize),
        };
        let Some(place) = place.filter(|place| line.len() > 1 && !line.contains(place)) else {
            return;
        };
        let [resource, permissions, _, depth] = self.places[last];
        let word = parent_word(last);
        self.places[place] = [resource, permissions, word, depth.wrapping_add(1)];
        self.draw_some(random, place, 1..5);
        if random.percent(40) {
            let broken = line[1 + random.below(line.len() as u32 - 1) as usize];
            self.places[broken][2] = past_parent(random, self.places[broken][2]);
        }
    }

    /// Changes one word, mostly of a live place.
    fn change_word(&mut self, random: &mut Random) {
        let place = self.some_live(random);
        let other = self.places[self.some_live(random)];
        let object = random.below(OBJECTS as u32) as usize;
        let word = random.below(PLACE_WIDTH as u32) as usize;
        let at = if random.percent(85) {
            &mut self.places[place][word]
        } else {
            &mut self.objects[object][word]
        };
        *at = match random.below(6) {
            0 => at.wrapping_add(1),
            1 => at.wrapping_sub(1),
            2 => *at ^ 1 << random.below(32),
            3 => random.below(80),
            4 => other[word],
            _ => random.word() >> random.below(32),
        };
    }

    // Damage to records.

    /// A used record after boot's, or a new one.
    fn later_record(&mut self, random: &mut Random) -> u32 {
        let used = self.used();
        let later = (ROOT_SC + 1..used).collect::<Vec<u32>>();
        random.pick(&later).unwrap_or_else(|| self.add_record(SM))
    }

    /// A record of a kind after boot's, which is made if there is none.
    fn record_of(&mut self, random: &mut Random, kind: u32) -> u32 {
        let of_kind = |&number: &u32| number > ROOT_SC && self.objects[number as usize][0] == kind;
        let records: Vec<u32> = (0..OBJECTS as u32).filter(of_kind).collect();
        random
            .pick(&records)
            .unwrap_or_else(|| self.add_record(kind))
    }

    /// A new record after the used ones, or the last one if all are used.
    fn add_record(&mut self, kind: u32) -> u32 {
        let number = self.used().min(OBJECTS as u32 - 1);
        let pds = self.objects.iter().filter(|record| record[0] == PD).count() as u32;
        let ec = ROOT_PD + 1;
        self.objects[number as usize] = match kind {
            PD => [PD, pds + 1, 0, 0, 0],
            EC => [EC, 1, 0, 0, 0],
            SC => [SC, ec, 1, 1, 0],
            PT => [PT, ec, 0, 0, 0],
            _ => [SM, 0, 0, 0, 0],
        };
        number
    }

    /// Gives an object that no place may name any more a place without a parent, and a line
    /// below it, in half of the cases.
    fn hold(&mut self, random: &mut Random, number: u32) {
        if random.percent(50) {
            if let Some(place) = random.pick(&self.null_places(Space::Object)) {
                self.places[place] = [number, 1, 0, 0];
                self.draw_some(random, place, 0..4);
            }
        }
    }
}
