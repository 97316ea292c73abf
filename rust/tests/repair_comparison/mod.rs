//! The proved repair beside the model's: both get the same tables, mostly damaged,
//! and what they answer and write is compared, as are the damage reports and a
//! hypercall before the repair and after it.

#[path = "../comparison/same.rs"]
mod same;
#[path = "../comparison/tables.rs"]
mod tables;

use std::collections::BTreeMap;

use model::boot::ROOT_EC;
use model::dump::{Dump, OBJECTS_START};
use model::dump_generator::{dump, Made, Sort, Stock};
use model::layout::DOMAIN_PLACES;
use model::random::Random;
use rudozhev::words::{self, DUMP_BYTES, LOOKUP, OBJECT_WORDS, PLACE_WIDTH, PLACE_WORDS};
use rudozhev::{Refusal, Tables};

pub use same::Difference;
use same::{same, same_list};
pub use tables::Words;
use tables::{expected, expected_damage, same_tables};

/// Dumps that are made from the same sound tables.
const DUMPS_OF_A_STOCK: u64 = 500;

/// A comparison in progress: its source of numbers and what was compared.
pub struct RepairComparison {
    random: Random,
    stock: Stock,
    /// Boot's tables.
    pub booted: Words,
    /// Dumps of the generator.
    pub dumps: u64,
    /// Damages of the generator by their sort.
    pub sorts: BTreeMap<Sort, u64>,
    /// Repairs that were refused, by the first broken rule of the tables.
    pub refused: [u64; 13],
    /// Repairs that succeeded, by the first broken rule of the tables, 0 for sound ones.
    pub repaired: [u64; 13],
    /// Live places that were emptied: capabilities that were lost.
    pub lost: u64,
    /// Null places that were emptied of the words that they had left.
    pub left_over: u64,
}

impl RepairComparison {
    pub fn new(seed: u64) -> RepairComparison {
        let mut random = Random::new(seed);
        let mut booted = Words { places: vec![0; PLACE_WORDS], objects: vec![0; OBJECT_WORDS] };
        model::boot(&mut booted.places, &mut booted.objects);
        RepairComparison {
            stock: Stock::new(random.word().into()),
            random,
            booted,
            dumps: 0,
            sorts: BTreeMap::new(),
            refused: [0; 13],
            repaired: [0; 13],
            lost: 0,
            left_over: 0,
        }
    }

    /// Repairs tables of any lengths and words, and answers how many capabilities were lost;
    /// none where the repair is refused.
    pub fn repair(&mut self, found: &Words) -> Result<Option<u32>, Difference> {
        let rule = self.report(found)?;
        let (mut proved, mut other) = (found.clone(), found.clone());
        let reply = words::repair(&mut proved.places, &proved.objects);
        let model = model::repair(&mut other.places, &other.objects);
        same("reply of a repair", reply, expected(model))?;
        same_tables(&proved, &other)?;
        same("whether a repair is refused", reply.is_err(), self.is_past_repair(found))?;
        match reply {
            Ok(lost) => {
                self.repaired[rule] += 1;
                self.compare_places(found, &proved, lost)?;
                same("the first broken rule after a repair", self.report(&proved)?, 0)?;
                let mut again = proved.clone();
                let reply = words::repair(&mut again.places, &again.objects);
                same("reply of a second repair", reply, Ok(0))?;
                same_tables(&again, &proved)?;
            }
            Err(_) => {
                self.refused[rule] += 1;
                same_tables(&proved, found)?;
            }
        }
        compare_typed(found, &proved, reply)?;
        Ok(reply.ok())
    }

    /// The first broken rule, 0 in sound tables; hypercalls are refused where there is one.
    fn report(&mut self, tables: &Words) -> Result<usize, Difference> {
        let Words { places, objects } = tables;
        let report = words::damage(places, objects);
        let model = model::damage(places, objects).map(expected_damage);
        same("damage", report, model)?;
        same("soundness", words::is_sound(places, objects), model.is_none())?;

        let mut after = tables.clone();
        let at = self.random.below(64) << 12 | (1 + self.random.below(3));
        let arguments = [at, 0, 0, 0, 0, 0];
        let Words { places, objects } = &mut after;
        let reply = words::hypercall(LOOKUP, ROOT_EC, arguments, places, objects, &[], &mut []);
        let damaged = reply == Err(Refusal::Damaged);
        same("whether LOOKUP finds damage", damaged, model.is_some())?;
        same_tables(&after, tables)?;
        let Words { places, objects } = &mut after;
        let model_reply =
            model::hypercall(LOOKUP, ROOT_EC, arguments, places, objects, &[], &mut []);
        same("reply of LOOKUP", reply, expected(model_reply))?;
        Ok(model.map_or(0, |damage| damage.rule as usize))
    }

    /// Whether lengths are wrong, a record breaks a rule, or a place of domain 0 is neither as
    /// at boot nor null both at boot and now.
    fn is_past_repair(&self, found: &Words) -> bool {
        if found.places.len() != PLACE_WORDS {
            return true;
        }
        // Boot's places break no rule that the records do not break.
        if !model::is_sound(&self.booted.places, &found.objects) {
            return true;
        }
        rows(found)
            .zip(rows(&self.booted))
            .take(DOMAIN_PLACES as usize)
            .any(|(row, booted)| row != booted && (row[1] != 0 || booted[1] != 0))
    }

    /// Whether each place is as it was found or has four words 0, and as many live ones went
    /// as the repair answers.
    fn compare_places(
        &mut self,
        found: &Words,
        repaired: &Words,
        lost: u32,
    ) -> Result<(), Difference> {
        let mut went = 0;
        for ((found, repaired), place) in rows(found).zip(rows(repaired)).zip(0..) {
            if found != repaired {
                same_list(&format!("place {place}"), repaired, &[0; PLACE_WIDTH])?;
                match found[1] {
                    0 => self.left_over += 1,
                    _ => went += 1,
                }
            }
        }
        self.lost += u64::from(went);
        same("capabilities lost", lost, went)
    }

    /// Repairs the tables of a dump, where that is refused once more with domain 0 as at boot,
    /// and now and then with another length.
    pub fn round(&mut self) -> Result<(), Difference> {
        if self.dumps % DUMPS_OF_A_STOCK == DUMPS_OF_A_STOCK - 1 {
            self.stock = Stock::new(self.random.word().into());
        }
        let Made { sorts, bytes } = dump(&mut self.random, &self.stock);
        self.dumps += 1;
        for sort in sorts {
            *self.sorts.entry(sort).or_default() += 1;
        }
        let mut found = words_of(&bytes);
        if self.repair(&found)?.is_none() {
            let places = found.places.iter_mut().zip(&self.booted.places);
            places
                .take(DOMAIN_PLACES as usize * PLACE_WIDTH)
                .for_each(|(word, &booted)| *word = booted);
            self.repair(&found)?;
        }
        if self.random.percent(5) {
            self.resize(&mut found);
            self.repair(&found)?;
        }
        Ok(())
    }

    /// Gives one of the tables another length, often nearly the right one.
    fn resize(&mut self, tables: &mut Words) {
        let words = match self.random.below(2) {
            0 => &mut tables.places,
            _ => &mut tables.objects,
        };
        let length = match self.random.below(4) {
            0 => self.random.below(2 * words.len() as u32 + 1) as usize,
            1 => words.len() + 4,
            2 => words.len() + 1,
            _ => words.len().saturating_sub(1),
        };
        words.resize(length, 0);
    }
}

/// The words of each place.
fn rows(tables: &Words) -> impl Iterator<Item = &[u32]> {
    tables.places.chunks(PLACE_WIDTH)
}

/// The words of both tables in the bytes of a dump, which may have another length.
fn words_of(bytes: &[u8]) -> Words {
    let (places, objects) = bytes.split_at(bytes.len().min(OBJECTS_START));
    let words = |bytes: &[u8]| {
        let (words, _) = bytes.as_chunks();
        words.iter().map(|&word| u32::from_le_bytes(word)).collect()
    };
    Words { places: words(places), objects: words(objects) }
}

/// The typed tables are repaired as the words are, and have the model's dump.
fn compare_typed(
    found: &Words,
    repaired: &Words,
    reply: Result<u32, Refusal>,
) -> Result<(), Difference> {
    let typed = |words: &Words| {
        let places = words.places.as_slice().try_into().ok()?;
        Some(Tables::from_words(places, words.objects.as_slice().try_into().ok()?))
    };
    let (Some(mut tables), Some(repaired_tables)) = (typed(found), typed(repaired)) else {
        return same("a repair of wrong lengths", reply, Err(Refusal::Damaged));
    };
    same("reply of a typed repair", tables.repair(), reply)?;
    same("typed tables", tables == repaired_tables, true)?;
    let mut bytes = [0xa5; DUMP_BYTES];
    tables.dump(&mut bytes);
    let Words { places, objects } = repaired.clone();
    same_list("a dump", &bytes, &Dump { places, objects }.bytes())?;
    same("the tables of a dump", Tables::from_dump(&bytes) == tables, true)
}
