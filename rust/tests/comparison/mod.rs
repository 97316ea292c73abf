//! The proved functions beside the model: both get the same words, and what
//! they answer and write is compared after every call.

mod same;
mod tables;

use std::collections::BTreeMap;

use model::boot::{ROOT_EC, ROOT_SC};
use model::generator::{journal, Kind, EC_SELECTOR, PD_SELECTOR, PT_SELECTOR, ROOT_SECOND_EC};
use model::journal::Record;
use model::layout::{DEPTH_LIMIT, DOMAIN_PLACES, SELECTORS, SPACE_START};
use model::random::Random;
use model::tables::Space;
use model::Hypercall;
use rudozhev::words::{
    self, BLOCK_WORDS, OBJECT_WORDS, PLACES, PLACE_WIDTH, PLACE_WORDS, RECORD_WIDTH,
};
use rudozhev::{Damage, Refusal};

pub use same::Difference;
use same::{same, same_list};
pub use tables::Words;
use tables::{expected, expected_damage, same_tables};

/// Object selectors where boot, and then the generator's journals, put PDs, ECs and portals.
const SETTLED: [u32; 8] = [
    32,
    33,
    PD_SELECTOR,
    PD_SELECTOR + 1,
    ROOT_SECOND_EC,
    EC_SELECTOR,
    PT_SELECTOR,
    PT_SELECTOR + 1,
];

/// A comparison in progress: its source of numbers and what was compared.
pub struct Comparison {
    random: Random,
    pub hypercalls: u64,
    pub censuses: u64,
    pub boots: u64,
    pub parts: u64,
    /// Hypercalls by number, or none where it is not built, and status.
    pub statuses: BTreeMap<(Option<u32>, u32), u64>,
    /// Censuses by status.
    pub census_statuses: BTreeMap<u32, u64>,
    /// Damage reports by rule, 0 for sound tables.
    pub rules: [u64; 13],
}

impl Comparison {
    pub fn new(seed: u64) -> Comparison {
        Comparison {
            random: Random::new(seed),
            hypercalls: 0,
            censuses: 0,
            boots: 0,
            parts: 0,
            statuses: BTreeMap::new(),
            census_statuses: BTreeMap::new(),
            rules: [0; 13],
        }
    }

    // One call each.

    pub fn boot(&mut self, tables: &mut Words) -> Result<(), Difference> {
        let mut other = tables.clone();
        let reply = words::boot(&mut tables.places, &mut tables.objects);
        let model = model::boot(&mut other.places, &mut other.objects);
        self.boots += 1;
        same("reply of boot", reply, expected(model))?;
        same_tables(tables, &other)
    }

    /// A hypercall, and why it was refused, if it was; then it must have left every word.
    pub fn hypercall(
        &mut self,
        tables: &mut Words,
        number: u32,
        caller: u32,
        arguments: [u32; 6],
        source: &[u32],
        target: &mut [u32],
    ) -> Result<Option<Refusal>, Difference> {
        let (mut other, mut other_target) = (tables.clone(), target.to_vec());
        let before = (tables.clone(), target.to_vec());
        let Words { places, objects } = tables;
        let reply = words::hypercall(number, caller, arguments, places, objects, source, target);
        let Words { places, objects } = &mut other;
        let model =
            model::hypercall(number, caller, arguments, places, objects, source, &mut other_target);
        self.hypercalls += 1;
        let built = Hypercall::from_number(number).map(Hypercall::number);
        *self.statuses.entry((built, model.status.number())).or_default() += 1;
        same(&format!("reply of hypercall {number}"), reply, expected(model))?;
        same_tables(tables, &other)?;
        same_list("the target block", target, &other_target)?;
        if reply.is_err() {
            same_tables(tables, &before.0)?;
            same_list("the target block of a refused call", target, &before.1)?;
        }
        Ok(reply.err())
    }

    /// A census, and why it was refused, if it was.
    pub fn census(
        &mut self,
        tables: &Words,
        place: u32,
        list: &mut [u32],
    ) -> Result<Option<Refusal>, Difference> {
        let mut other = list.to_vec();
        let reply = words::census(place, &tables.places, &tables.objects, list);
        let model = model::census(place, &tables.places, &tables.objects, &mut other);
        self.censuses += 1;
        *self.census_statuses.entry(model.status.number()).or_default() += 1;
        same(&format!("reply of the census of place {place}"), reply, expected(model))?;
        same_list("the list", list, &other)?;
        Ok(reply.err())
    }

    /// The first broken rule, and whether there is one.
    pub fn damage(&mut self, tables: &Words) -> Result<Option<Damage>, Difference> {
        let report = words::damage(&tables.places, &tables.objects);
        let model = model::damage(&tables.places, &tables.objects).map(expected_damage);
        self.rules[model.map_or(0, |damage| damage.rule as usize)] += 1;
        same("damage", report, model)?;
        same("soundness", words::is_sound(&tables.places, &tables.objects), model.is_none())?;
        Ok(report)
    }

    pub fn untyped(&mut self, block: &[u32]) -> Result<(), Difference> {
        self.parts += 1;
        same("untyped part", words::untyped(block), model::untyped(block))
    }

    // Many calls each.

    /// Replays a journal, with a census and a damage report now and then.
    pub fn journal(&mut self, bytes: &[u8]) -> Result<Words, Difference> {
        let mut tables = self.random_tables();
        self.boot(&mut tables)?;
        let mut record = Record::empty(Hypercall::Call);
        let mut rest = bytes;
        while let Ok(after) = record.read(rest) {
            rest = after;
            let number = record.hypercall.number();
            let (source, target) = (&record.source, &mut record.target);
            self.hypercall(&mut tables, number, record.caller, record.arguments, source, target)?;
            self.untyped(&record.target)?;
            if self.random.percent(20) {
                self.damage(&tables)?;
                let place = self.random.below(PLACES + 3);
                let mut list = self.list();
                self.census(&tables, place, &mut list)?;
            }
        }
        Ok(tables)
    }

    /// A hypercall of any number, words and blocks.
    pub fn loose_call(&mut self, tables: &mut Words) -> Result<Option<Refusal>, Difference> {
        let number = match self.random.below(10) {
            0 => self.word(),
            1 => self.random.below(16),
            _ => self.random.pick(&Hypercall::ALL).map_or(0, Hypercall::number),
        };
        let caller = match self.random.below(10) {
            0 => self.word(),
            1 => self.random.below(64),
            _ => self.some_ec(tables),
        };
        let arguments = std::array::from_fn(|_| match self.random.below(8) {
            0 => self.word(),
            1 | 2 => self.descriptor(),
            3 | 4 => self.random.below(2 * Space::Object.selectors()),
            _ => self.random.pick(&SETTLED).unwrap_or(0),
        });
        let source = self.block();
        let mut target = self.block();
        self.hypercall(tables, number, caller, arguments, &source, &mut target)
    }

    /// Tables with words changed: their damage, and that every call on damaged tables is refused.
    pub fn spoilt(&mut self, tables: &Words) -> Result<(), Difference> {
        let mut tables = tables.clone();
        for _ in 0..1 + self.random.below(3) {
            self.spoil(&mut tables);
        }
        if self.random.percent(6) {
            self.resize(&mut tables);
        }
        let damage = self.damage(&tables)?;
        let refusal = self.loose_call(&mut tables)?;
        if damage.is_some() {
            same("refusal on damaged tables", refusal, Some(Refusal::Damaged))?;
            let place = self.random.below(PLACES + 3);
            let mut list = self.list();
            let refusal = self.census(&tables, place, &mut list)?;
            same("census of damaged tables", refusal, Some(Refusal::Damaged))?;
        }
        Ok(())
    }

    /// Censuses of a place with lists of every length up to a little more than is needed.
    pub fn censuses(&mut self, tables: &Words) -> Result<(), Difference> {
        let holds = |place: u32| tables.places[place as usize * PLACE_WIDTH + 1] != 0;
        let live: Vec<u32> = (0..PLACES).filter(|&place| holds(place)).collect();
        let place = match self.random.below(20) {
            0 => self.word(),
            1 => self.random.below(PLACES + 3),
            _ => self.random.pick(&live).unwrap_or(0),
        };
        let needed = match self.census(tables, place, &mut [])? {
            Some(Refusal::Short { needed }) => needed as usize,
            _ => 0,
        };
        for length in 0..needed + 3 {
            let mut list: Vec<u32> = (0..length).map(|_| self.random.word()).collect();
            self.census(tables, place, &mut list)?;
        }
        Ok(())
    }

    /// Boot on tables of any length and content.
    pub fn boots(&mut self) -> Result<(), Difference> {
        let mut tables = self.random_tables();
        if self.random.percent(40) {
            self.resize(&mut tables);
        }
        self.boot(&mut tables)
    }

    /// One round of everything, about `calls` hypercalls long.
    pub fn round(&mut self, calls: u32) -> Result<(), Difference> {
        let kind = self.random.pick(&Kind::ALL).unwrap_or(Kind::Mixed);
        let seed = self.random.word().into();
        let quarter = calls / 4;
        let mut tables = self.journal(&journal(kind, seed, 2 * quarter as usize))?;
        self.boots()?;
        for _ in 0..quarter {
            self.spoilt(&tables)?;
            self.censuses(&tables)?;
        }
        for _ in 0..quarter {
            self.loose_call(&mut tables)?;
            let block = self.block();
            self.untyped(&block)?;
        }
        Ok(())
    }

    // Words.

    /// A word at some edge, or any word.
    fn word(&mut self) -> u32 {
        let edges = [0, 1, 2, 31, 32, 63, 64, 65, 255, 256, 257, 1 << 31, u32::MAX - 1, u32::MAX];
        match self.random.below(3) {
            0 => self.random.word(),
            1 => self.random.word() >> self.random.below(32),
            _ => self.random.pick(&edges).unwrap_or(0),
        }
    }

    /// A descriptor of any type and mask, mostly well-formed.
    fn descriptor(&mut self) -> u32 {
        let [mask, kind] = [32, 4].map(|limit| self.random.below(limit));
        let selectors = SELECTORS[kind.saturating_sub(1) as usize];
        let order = self.random.below(selectors.trailing_zeros() + 2);
        let base = self.random.below(selectors + selectors / 8) >> order << order;
        base << 12 | order << 7 | mask << 2 | kind
    }

    /// The number of some EC.
    fn some_ec(&mut self, tables: &Words) -> u32 {
        let records = tables.objects.chunks(RECORD_WIDTH).zip(0..);
        let ecs: Vec<u32> =
            records.filter(|(record, _)| record[0] == 2).map(|(_, number)| number).collect();
        self.random.pick(&ecs).unwrap_or(ROOT_EC)
    }

    /// A message block, mostly of the right length and with counts that fit.
    fn block(&mut self) -> Vec<u32> {
        let length = match self.random.below(12) {
            0 => self.random.below(130) as usize,
            1 => BLOCK_WORDS - 1,
            2 => BLOCK_WORDS + 1,
            _ => BLOCK_WORDS,
        };
        let mut block: Vec<u32> = (0..length)
            .map(|word| match word {
                1.. if self.random.percent(50) => self.descriptor(),
                _ => self.random.word(),
            })
            .collect();
        if let Some(word) = block.first_mut() {
            let typed = self.random.below(31);
            if self.random.percent(90) {
                *word = typed << 16 | self.random.below(62 - 2 * typed);
            }
        }
        block
    }

    fn list(&mut self) -> Vec<u32> {
        let length = match self.random.below(3) {
            0 => PLACES,
            _ => self.random.below(20),
        };
        (0..length).map(|_| self.random.word()).collect()
    }

    /// Tables of the right lengths and any words.
    fn random_tables(&mut self) -> Words {
        let mut fill = |length| (0..length).map(|_| self.random.word()).collect();
        Words { places: fill(PLACE_WORDS), objects: fill(OBJECT_WORDS) }
    }

    /// Gives one of the tables another length, often nearly the right one.
    fn resize(&mut self, tables: &mut Words) {
        let words = match self.random.below(2) {
            0 => &mut tables.places,
            _ => &mut tables.objects,
        };
        let right = words.len() as u32;
        let length = match self.random.below(3) {
            0 => self.random.below(2 * right),
            _ => right + self.random.below(12) - 6,
        };
        words.resize(length as usize, 0);
    }

    /// Changes tables: a word, a row, two of them or nearly everything.
    fn spoil(&mut self, tables: &mut Words) {
        let in_places = self.random.percent(65);
        let (words, width) = if in_places {
            (&mut tables.places, PLACE_WIDTH)
        } else {
            (&mut tables.objects, RECORD_WIDTH)
        };
        let rows = words.len() / width;
        // Rows in use, and those outside domain 0, are of more interest.
        let mut row = 0;
        for _ in 0..16 {
            row = self.random.below(rows as u32) as usize * width;
            if words[row + 1] != 0 && (!in_places || row >= DOMAIN_PLACES as usize * width) {
                break;
            }
        }
        let other = self.random.below(rows as u32) as usize * width;
        let at = row + self.random.below(width as u32) as usize;
        match self.random.below(15) {
            0 => words[at] = words[at].wrapping_add(1),
            1 => words[at] = words[at].wrapping_sub(1),
            2 => words[at] ^= 1 << self.random.below(32),
            3 => words[at] = self.random.below(Space::Object.selectors() + 4),
            4 => words[at] = self.word(),
            5 => words.swap(at, other + self.random.below(width as u32) as usize),
            6 => (0..width).for_each(|word| words.swap(row + word, other + word)),
            7 => words.copy_within(other..other + width, row),
            8 => words[row..row + width].fill(0),
            9 | 10 if in_places => self.line(words),
            11 if in_places => {
                // Every place outside domain 0, with small words.
                for row in words[DOMAIN_PLACES as usize * PLACE_WIDTH..].chunks_mut(PLACE_WIDTH) {
                    let limits = [66, 9, PLACES + 3, DEPTH_LIMIT + 2];
                    row.copy_from_slice(&limits.map(|limit| self.random.below(limit)));
                }
            }
            12 if !in_places => {
                // Every record after boot's, with small words.
                for word in &mut words[(ROOT_SC as usize + 1) * RECORD_WIDTH..] {
                    *word = self.random.below(8);
                }
            }
            13 => words.fill_with(|| self.random.word()),
            _ => words[at] = words[other],
        }
    }

    /// A line of one page through the root's memory space, about as deep as is
    /// allowed, in place of all that was lent of memory.
    fn line(&mut self, places: &mut [u32]) {
        let is_lent = |place: u32| place >= DOMAIN_PLACES && place % DOMAIN_PLACES < SPACE_START[1];
        for (row, place) in places.chunks_mut(PLACE_WIDTH).zip(0..) {
            if is_lent(place) {
                row.fill(0);
            }
        }
        let page = self.random.below(Space::Memory.selectors());
        for depth in 1..DEPTH_LIMIT - 1 + self.random.below(4) {
            let place = DOMAIN_PLACES - 1 + depth;
            let parent = if depth == 1 { page } else { place - 1 };
            let start = place as usize * PLACE_WIDTH;
            places[start..start + PLACE_WIDTH].copy_from_slice(&[page, 7, parent + 1, depth]);
        }
    }
}
