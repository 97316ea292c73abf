//! The history of fillings, kept beside the calls and fed only their numbers
//! and arguments: an independent and slow account of what every reply, block,
//! table and census must be.

use model::generator::{self, Kind};
use model::journal::{Record, Replay, Step};
use model::random::Random;
use model::{Hypercall, Status};

use crate::world::{
    listed_row, place, range, within, World, DEPTH_LIMIT, DOMAIN_PLACES, OBJECT, ORDERS, PLACES,
    ROOT_PAGES, SELECTORS,
};

/// Where object selectors and event bases wrap.
const WRAP: u32 = SELECTORS[OBJECT as usize];

/// A capability as it was once put at a place.
struct Filling {
    place: u32,
    resource: u32,
    permissions: u32,
    source: Option<usize>,
}

struct History {
    fillings: Vec<Filling>,
    /// The latest filling of each place.
    latest: Vec<Option<usize>>,
    /// The used object records.
    objects: Vec<[u32; 5]>,
}

/// A descriptor word read.
enum Named {
    Null,
    Malformed,
    Range {
        space: u32,
        base: u32,
        order: u32,
        mask: u32,
    },
}

fn read(word: u32) -> Named {
    let (kind, mask, order, base) = (word % 4, word / 4 % 32, word / 128 % 32, word / 4096);
    if kind == 0 {
        return Named::Null;
    }
    let space = kind - 1;
    let (size, whole) = (SELECTORS[space as usize], ORDERS[space as usize]);
    if order > whole || base % (1 << order) != 0 || (kind != 3 && base + (1 << order) > size) {
        return Named::Malformed;
    }
    Named::Range {
        space,
        base: base % size,
        order,
        mask,
    }
}

/// Why an item of a kind is null, by its descriptor and its window: the first case that holds.
fn reason(words: [u32; 2], kind: u32) -> u32 {
    let is_null = |word: u32| matches!(read(word), Named::Null);
    let is_malformed = |word: u32| matches!(read(word), Named::Malformed);
    let cases = [
        words.into_iter().any(is_null),
        words.into_iter().any(is_malformed),
        words[0] % 4 != words[1] % 4,
        kind == 1,
        kind == 0,
    ];
    (1..)
        .zip(cases)
        .find(|(_, holds)| *holds)
        .map_or(0, |(number, _)| number)
}

type Outcome = Result<u32, Status>;

impl History {
    fn boot() -> History {
        let mut objects = vec![[3, 64, 0, 0, 0]; 4];
        objects.extend([[5, 0, 0, 0, 0]; 24]);
        objects.extend([[1, 1, 0, 0, 0], [2, 1, 0, 0, 0], [3, 29, 1, 10_000, 0]]);
        let mut history = History {
            fillings: Vec::new(),
            latest: vec![None; PLACES as usize],
            objects,
        };
        for (space, permissions) in [(0, 7), (1, 1)] {
            for number in 0..64 {
                history.fill(place(0, space, number), number, permissions, None);
            }
        }
        for number in 0..28 {
            history.fill(
                place(0, 2, number),
                number,
                if number < 4 { 1 } else { 3 },
                None,
            );
        }
        for (page, permissions) in ROOT_PAGES {
            let source = history.held(place(0, 0, page));
            history.fill(place(1, 0, page), page, permissions, source);
        }
        for (number, permissions) in [(28, 31), (29, 7), (30, 1)] {
            history.fill(place(1, 2, number + 4), number, permissions, None);
        }
        history
    }

    fn fill(&mut self, place: u32, resource: u32, permissions: u32, source: Option<usize>) {
        self.latest[place as usize] = Some(self.fillings.len());
        self.fillings.push(Filling {
            place,
            resource,
            permissions,
            source,
        });
    }

    /// The filling that a place holds.
    fn held(&self, place: u32) -> Option<usize> {
        self.latest[place as usize].filter(|&filling| self.fillings[filling].permissions != 0)
    }

    /// All fillings that a filling came from, nearest first.
    fn origins(&self, filling: usize) -> Vec<usize> {
        let mut origins = Vec::new();
        let mut at = self.fillings[filling].source;
        while let Some(origin) = at {
            origins.push(origin);
            at = self.fillings[origin].source;
        }
        origins
    }

    fn depth(&self, filling: usize) -> u32 {
        self.origins(filling).len() as u32
    }

    /// The object that a selector names, if it is of this kind and held with the permission.
    fn named(&self, domain: u32, selector: u32, kind: u32, permission: u32) -> Option<u32> {
        let filling = &self.fillings[self.held(place(domain, 2, selector % WRAP))?];
        let fits = filling.permissions & permission == permission
            && self.objects[filling.resource as usize][0] == kind;
        fits.then_some(filling.resource)
    }

    /// Delegates one place; whether it filled the destination.
    fn delegate(&mut self, from: u32, to: u32, mask: u32) -> bool {
        let Some(source) = self.held(from) else {
            return false;
        };
        let Filling {
            resource,
            permissions,
            ..
        } = self.fillings[source];
        if self.depth(source) >= DEPTH_LIMIT || self.held(to).is_some() || permissions & mask == 0 {
            return false;
        }
        self.fill(to, resource, permissions & mask, Some(source));
        true
    }

    fn run(
        &mut self,
        number: u32,
        caller: u32,
        arguments: [u32; 6],
        source: &[u32; 64],
        target: &mut [u32; 64],
    ) -> Outcome {
        if ![0, 2, 3, 4, 5, 6, 7, 8, 11].contains(&number) {
            return Err(Status::BadHyp);
        }
        let domain = match self.objects.get(caller as usize) {
            Some([2, domain, ..]) => *domain,
            _ => return Err(Status::BadCaller),
        };
        match number {
            0 => self.call(caller, domain, arguments[0], source, target),
            7 => self.revoke(domain, arguments),
            8 => self.lookup(domain, arguments[0]),
            11 => self.semaphore(domain, arguments),
            _ => self.create(number - 1, domain, arguments),
        }
    }

    fn create(&mut self, kind: u32, domain: u32, [new, pd, a, b, c, d]: [u32; 6]) -> Outcome {
        let new = place(domain, 2, new % WRAP);
        if self.held(new).is_some() {
            return Err(Status::BadCap);
        }
        let pd = self
            .named(domain, pd, 1, 1 << (kind - 1))
            .ok_or(Status::BadCap)?;
        let bind = |permission| self.named(domain, a, 2, permission).ok_or(Status::BadCap);
        let pds = self.objects.iter().filter(|object| object[0] == 1).count() as u32;
        let (words, greatest) = match kind {
            1 => ([pds + 1, 0, 0, 0], 31),
            2 if a > 3 => return Err(Status::BadCpu),
            2 => ([self.objects[pd as usize][1], a, b % WRAP, 0], 7),
            3 => ([bind(2)?, b % 256, b / 4096, 0], 1),
            4 => ([bind(4)?, b, c, d], 3),
            _ => ([a, 0, 0, 0], 3),
        };
        if kind == 3 && (words[1] == 0 || words[2] == 0) {
            return Err(Status::BadPar);
        }
        let initial = match read(a) {
            _ if kind != 1 => None,
            Named::Null => None,
            Named::Range {
                space: 2,
                base,
                order,
                mask,
            } => Some((base, order, mask)),
            _ => return Err(Status::BadPar),
        };
        if self.objects.len() == 64 || (kind == 1 && pds == 7) {
            return Err(Status::NoRoom);
        }
        if let Some((base, order, mask)) = initial {
            for selector in base..base + (1 << order) {
                self.delegate(
                    place(domain, 2, selector),
                    place(pds + 1, 2, selector),
                    mask,
                );
            }
        }
        self.fill(new, self.objects.len() as u32, greatest, None);
        self.objects
            .push([kind, words[0], words[1], words[2], words[3]]);
        Ok(0)
    }

    fn revoke(&mut self, domain: u32, [descriptor, own, ..]: [u32; 6]) -> Outcome {
        let (space, base, order, mask) = match read(descriptor) {
            _ if own > 1 => return Err(Status::BadPar),
            Named::Malformed => return Err(Status::BadPar),
            Named::Null => return Ok(0),
            // Pages have three bits, ports one and objects five; a mask must have one of them.
            Named::Range { space, mask, .. } if mask % [8, 2, 32][space as usize] == 0 => {
                return Err(Status::BadPar)
            }
            Named::Range {
                space,
                base,
                order,
                mask,
            } => (space, base, order, mask),
        };
        let held: Vec<usize> = (base..base + (1 << order))
            .filter_map(|selector| self.held(place(domain, space, selector)))
            .collect();
        for filling in 0..self.fillings.len() {
            let below = self
                .origins(filling)
                .iter()
                .any(|origin| held.contains(origin));
            if below || (own == 1 && held.contains(&filling)) {
                self.fillings[filling].permissions &= !mask;
            }
        }
        Ok(0)
    }

    fn lookup(&self, domain: u32, descriptor: u32) -> Outcome {
        let (space, base) = match read(descriptor) {
            Named::Malformed => return Err(Status::BadPar),
            Named::Null => return Ok(0),
            Named::Range { space, base, .. } => (space, base),
        };
        let Some(held) = self.held(place(domain, space, base)) else {
            return Ok(0);
        };
        let permissions = self.fillings[held].permissions;
        for order in (0..=ORDERS[space as usize]).rev() {
            let start = base - base % (1 << order);
            let run: Option<Vec<(u32, u32)>> = (start..start + (1 << order))
                .map(|selector| {
                    let filling = &self.fillings[self.held(place(domain, space, selector))?];
                    Some((filling.permissions, filling.resource))
                })
                .collect();
            let Some(run) = run else { continue };
            let fits = (0..).zip(&run).all(|(offset, &(bits, resource))| {
                bits == permissions && resource == run[0].1 + offset
            });
            if fits {
                return Ok(range(space, start, order, permissions));
            }
        }
        unreachable!("order 0 always fits")
    }

    fn semaphore(&mut self, domain: u32, [selector, operation, ..]: [u32; 6]) -> Outcome {
        if operation > 1 {
            return Err(Status::BadPar);
        }
        let object = self
            .named(domain, selector, 5, operation + 1)
            .ok_or(Status::BadCap)?;
        let count = &mut self.objects[object as usize][1];
        match (operation, *count) {
            (0, u32::MAX) => return Err(Status::BadPar),
            (0, _) => *count += 1,
            (_, 0) => return Err(Status::ComTim),
            _ => *count -= 1,
        }
        Ok(0)
    }

    fn call(
        &mut self,
        caller: u32,
        sender: u32,
        portal: u32,
        source: &[u32; 64],
        target: &mut [u32; 64],
    ) -> Outcome {
        let portal = self.named(sender, portal, 4, 2).ok_or(Status::BadCap)?;
        let callee = self.objects[portal as usize][1];
        if callee == caller {
            return Err(Status::ComTim);
        }
        let receiver = self.objects[callee as usize][1];
        if self.objects[callee as usize][2] != self.objects[caller as usize][2] {
            return Err(Status::BadCpu);
        }
        let (untyped, typed) = ((source[0] % 65536) as usize, (source[0] / 65536) as usize);
        if untyped + 2 * typed > 60 {
            return Err(Status::BadPar);
        }
        target[0] = source[0];
        target[4..4 + untyped].copy_from_slice(&source[4..4 + untyped]);
        let mut filled = 0;
        for item in 0..typed {
            let (descriptor, second) = (source[63 - 2 * item], source[62 - 2 * item]);
            let window = target[1 + second as usize % 2];
            let shown = match (read(descriptor), read(window)) {
                (
                    Named::Range {
                        space,
                        base,
                        order,
                        mask,
                    },
                    Named::Range {
                        space: same,
                        base: window,
                        order: limit,
                        ..
                    },
                ) if space == same => {
                    if second % 2 == 1 {
                        let smaller = order.min(limit);
                        let raise = |larger: u32| {
                            let hotspot = second / 4096 % (1 << larger);
                            hotspot - hotspot % (1 << smaller)
                        };
                        let (from, to) = if order > limit {
                            (base + raise(order), window)
                        } else {
                            (base, window + raise(limit))
                        };
                        let from_domain = if second / 2048 % 2 == 1 && sender == 1 {
                            0
                        } else {
                            sender
                        };
                        let count = (0..1 << smaller)
                            .filter(|offset| {
                                self.delegate(
                                    place(from_domain, space, from + offset),
                                    place(receiver, space, to + offset),
                                    mask,
                                )
                            })
                            .count() as u32;
                        filled += count;
                        if count == 0 {
                            0
                        } else {
                            range(space, to, smaller, mask)
                        }
                    } else {
                        self.translate(sender, receiver, (space, base, order, mask), window, limit)
                            .unwrap_or(0)
                    }
                }
                _ => 0,
            };
            target[63 - 2 * item] = shown;
            target[62 - 2 * item] = match shown {
                0 => second % 2 + 2 * reason([descriptor, window], second % 2),
                _ => second % 2,
            };
        }
        Ok(filled)
    }

    fn translate(
        &self,
        sender: u32,
        receiver: u32,
        (space, base, order, mask): (u32, u32, u32, u32),
        window: u32,
        limit: u32,
    ) -> Option<u32> {
        let mut shown = mask;
        let mut start = None;
        for offset in 0..1 << order {
            let filling = self.held(place(sender, space, base + offset))?;
            let origin = self
                .origins(filling)
                .into_iter()
                .find(|&origin| self.fillings[origin].place / DOMAIN_PLACES == receiver)?;
            let (_, selector) = within(self.fillings[origin].place);
            let first = *start.get_or_insert(selector);
            if selector != first + offset
                || first % (1 << order) != 0
                || selector < window
                || selector >= window + (1 << limit)
            {
                return None;
            }
            shown &= self.fillings[filling].permissions;
        }
        Some(range(space, start?, order, shown))
    }

    /// The words that a place must have.
    fn row(&self, place: u32) -> [u32; 4] {
        let Some(held) = self.held(place) else {
            return [0; 4];
        };
        let filling = &self.fillings[held];
        let parent = filling
            .source
            .map_or(0, |source| self.fillings[source].place + 1);
        [
            filling.resource,
            filling.permissions,
            parent,
            self.depth(held),
        ]
    }

    /// For each place, the other places that hold a filling which came from the one it holds.
    fn heirs(&self) -> Vec<Vec<u32>> {
        let mut heirs = vec![Vec::new(); PLACES as usize];
        for heir in 0..PLACES {
            let Some(filling) = self.held(heir) else {
                continue;
            };
            for origin in self.origins(filling) {
                let above = self.fillings[origin].place;
                if self.held(above) == Some(origin) {
                    heirs[above as usize].push(heir);
                }
            }
        }
        heirs
    }
}

fn tables_agree(history: &History, world: &World) {
    for number in 0..PLACES {
        assert_eq!(world.row(number), history.row(number), "place {number}");
    }
    for number in 0..64 {
        let object = history
            .objects
            .get(number as usize)
            .copied()
            .unwrap_or([0; 5]);
        assert_eq!(world.record(number), object, "record {number}");
    }
}

/// Every live place's census is its heirs; the number of heirs in all.
fn censuses_agree(history: &History, world: &World, random: &mut Random) -> usize {
    let all = history.heirs();
    for (number, heirs) in (0..).zip(&all) {
        // Most places are null, and of these one in eight is asked about.
        if history.held(number).is_none() && random.below(8) > 0 {
            continue;
        }
        let extra = random.below(3) as usize;
        let mut list = vec![5555; heirs.len() + extra];
        let reply = world.census(number, &mut list);
        if history.held(number).is_none() {
            assert_eq!(reply.status, Status::BadCap);
            continue;
        }
        assert_eq!(
            (reply.status, reply.answer),
            (Status::Success, heirs.len() as u32)
        );
        assert_eq!(list[..heirs.len()], heirs[..]);
        assert!(list[heirs.len()..].iter().all(|&word| word == 5555));
        if let Some(short) = heirs.len().checked_sub(1) {
            let reply = world.census(number, &mut list[..short]);
            assert_eq!(
                (reply.status, reply.answer),
                (Status::Short, heirs.len() as u32)
            );
        }
    }
    all.iter().map(Vec::len).sum()
}

/// REVOKE of one place with all mask bits and self 0 clears its heirs and nothing else.
fn revocations_agree(history: &History, world: &World) {
    let all = history.heirs();
    for (number, heirs) in (0..).zip(&all) {
        let domain = number / DOMAIN_PLACES;
        let ecs = (0..)
            .zip(&history.objects)
            .filter(|(_, object)| object[0] == 2 && object[1] == domain);
        if history.held(number).is_none() {
            continue;
        }
        for (ec, _) in ecs {
            let mut after = world.clone();
            let (space, selector) = within(number);
            let descriptor = range(space, selector, 0, 31);
            after.does(7, ec, &[descriptor, 0]);
            let mut expected = world.clone();
            for &heir in heirs {
                expected.set_row(heir, [0; 4]);
            }
            assert!(after == expected, "revocation at place {number}");
        }
    }
}

/// Replays a journal beside its history; gives the most heirs seen and the records run.
fn follow(bytes: &[u8], seed: u64) -> (usize, usize) {
    let mut random = Random::new(seed);
    let mut history = History::boot();
    let mut replay = Replay::new(bytes);
    let mut most = 0;
    let mut count = 0;
    let mut rest = bytes;
    let mut record = Record::empty(Hypercall::Call);
    while let Step::Ran(_, reply) = replay.step() {
        rest = record.read(rest).expect("a whole record");
        let Record {
            hypercall,
            caller,
            arguments,
            source,
            mut target,
        } = record.clone();
        let outcome = history.run(hypercall.number(), caller, arguments, &source, &mut target);
        let expected = match outcome {
            Ok(answer) => (Status::Success, answer),
            Err(status) => (status, 0),
        };
        assert_eq!((reply.status, reply.answer), expected, "record {count}");
        if hypercall == Hypercall::Call {
            assert_eq!(replay.record.target, target, "block of record {count}");
        }
        count += 1;
        let world = || World {
            places: replay.machine.places.to_vec(),
            objects: replay.machine.objects.to_vec(),
        };
        if count % 4 == 0 {
            tables_agree(&history, &world());
        }
        if count % 32 == 0 {
            most = most.max(censuses_agree(&history, &world(), &mut random));
            // A number that is not built changes nothing anywhere.
            let number = [1, 9, 10, 12][random.below(4) as usize];
            let unbuilt = history.run(number, caller, arguments, &source, &mut target);
            assert_eq!(unbuilt, Err(Status::BadHyp));
            assert_eq!(
                world().call(number, caller, &arguments),
                (Status::BadHyp.number(), 0)
            );
        }
    }
    let world = World {
        places: replay.machine.places.to_vec(),
        objects: replay.machine.objects.to_vec(),
    };
    tables_agree(&history, &world);
    most = most.max(censuses_agree(&history, &world, &mut random));
    revocations_agree(&history, &world);
    (most, count)
}

fn follow_all(kind: Kind, seeds: u64, records: usize, heirs: usize) {
    let mut most = 0;
    for seed in 1000..1000 + seeds {
        let (seen, count) = follow(&generator::journal(kind, seed, records), seed);
        assert_eq!(count, records);
        most = most.max(seen);
    }
    assert!(most >= heirs, "the journals gave {most} heirs at most");
}

#[test]
fn boot_adds_its_fillings_in_the_order_of_the_places() {
    let history = History::boot();
    let places = history.fillings.iter().map(|filling| filling.place);
    let expected = (0..156).chain([446, 447, 544, 545, 546]);
    assert!(places.eq(expected));
}

#[test]
fn the_sources_at_boot_are_those_of_two_pages() {
    let history = History::boot();
    let all = history.heirs();
    for filling in &history.fillings {
        let source = filling.source.map(|source| history.fillings[source].place);
        let (from, heirs) = match filling.place {
            446 => (Some(62), vec![]),
            447 => (Some(63), vec![]),
            62 => (None, vec![446]),
            63 => (None, vec![447]),
            _ => (None, vec![]),
        };
        assert_eq!(source, from, "place {}", filling.place);
        assert_eq!(all[filling.place as usize], heirs);
    }
    for number in 0..PLACES {
        assert_eq!(history.row(number), listed_row(number), "place {number}");
    }
}

#[test]
fn the_history_tells_boot() {
    // Two heirs and no record.
    assert_eq!(follow(&[], 1), (2, 0));
}

#[test]
fn the_history_tells_mixed_journals() {
    follow_all(Kind::Mixed, 120, 250, 100);
}

#[test]
fn the_history_tells_deep_journals() {
    follow_all(Kind::Deep, 80, 250, 500);
}

#[test]
fn the_history_tells_full_journals() {
    follow_all(Kind::Full, 80, 250, 50);
}

#[test]
fn the_history_tells_junk_journals() {
    follow_all(Kind::Junk, 60, 250, 4);
}

#[test]
fn the_history_tells_journals_of_null_items() {
    follow_all(Kind::Null, 40, 250, 50);
}

#[test]
fn the_history_tells_journals_of_the_roots_pages() {
    follow_all(Kind::Pages, 40, 250, 50);
}
