//! One call on tables, through the archive and by the model: what it gives and
//! how long it takes.

use std::hint::black_box;
use std::io;
use std::time::{Duration, Instant};

use model::boot::ROOT_EC;
use model::{Hypercall, Reply};

use crate::markdown::grouped;
use crate::tables::Lent;

extern "C" {
    fn rudozhev_hypercall(
        number: u32,
        caller: u32,
        a: u32,
        b: u32,
        c: u32,
        d: u32,
        e: u32,
        f: u32,
        places: *mut u32,
        place_words: usize,
        objects: *mut u32,
        object_words: usize,
        source: *const u32,
        source_words: usize,
        target: *mut u32,
        target_words: usize,
    ) -> u64;
    fn rudozhev_census(
        place: u32,
        places: *const u32,
        place_words: usize,
        objects: *const u32,
        object_words: usize,
        list: *mut u32,
        list_words: usize,
    ) -> u64;
    fn rudozhev_sound(
        places: *const u32,
        place_words: usize,
        objects: *const u32,
        object_words: usize,
    ) -> u32;
}

#[derive(Clone, Copy, PartialEq)]
pub enum Side {
    Model,
    Proved,
}

pub const SIDES: [Side; 2] = [Side::Model, Side::Proved];

/// What is measured on tables.
#[derive(Clone, Copy)]
pub enum Call {
    /// Nothing: what the clock itself takes.
    Clock,
    /// Every word of both tables, once.
    Reading,
    DamageTest,
    Census(u32),
    /// A hypercall of the root.
    Root(Hypercall, [u32; 6]),
}

impl Call {
    /// Makes the call; the reply is one number, as the archive's functions give it.
    pub fn run(self, side: Side, lent: &mut Lent) -> u64 {
        let Lent {
            places,
            objects,
            source,
            target,
            list,
        } = lent;
        match (self, side) {
            (Call::Clock, _) => 0,
            (Call::Reading, _) => {
                let words = places.iter().chain(objects.iter());
                words.fold(0, |bits, word| bits | word).into()
            }
            (Call::DamageTest, Side::Model) => model::is_sound(places, objects).into(),
            (Call::Census(place), Side::Model) => {
                packed(model::census(place, places, objects, list))
            }
            (Call::Root(call, arguments), Side::Model) => packed(model::hypercall(
                call.number(),
                ROOT_EC,
                arguments,
                places,
                objects,
                source,
                target,
            )),
            // SAFETY, here and below: the slices are valid for their lengths and do not
            // overlap, and the functions keep none.
            (Call::DamageTest, Side::Proved) => unsafe {
                rudozhev_sound(
                    places.as_ptr(),
                    places.len(),
                    objects.as_ptr(),
                    objects.len(),
                )
                .into()
            },
            (Call::Census(place), Side::Proved) => unsafe {
                rudozhev_census(
                    place,
                    places.as_ptr(),
                    places.len(),
                    objects.as_ptr(),
                    objects.len(),
                    list.as_mut_ptr(),
                    list.len(),
                )
            },
            (Call::Root(call, [a, b, c, d, e, f]), Side::Proved) => unsafe {
                rudozhev_hypercall(
                    call.number(),
                    ROOT_EC,
                    a,
                    b,
                    c,
                    d,
                    e,
                    f,
                    places.as_mut_ptr(),
                    places.len(),
                    objects.as_mut_ptr(),
                    objects.len(),
                    source.as_ptr(),
                    source.len(),
                    target.as_mut_ptr(),
                    target.len(),
                )
            },
        }
    }
}

fn packed(reply: Reply) -> u64 {
    u64::from(reply.status.number()) << 32 | u64::from(reply.answer)
}

/// What one of the first columns of a call's row says.
pub enum Cell {
    Text(&'static str),
    Number(u64),
}

impl Cell {
    pub fn text(&self) -> String {
        match self {
            Cell::Text(text) => text.to_string(),
            Cell::Number(number) => grouped(*number),
        }
    }
}

/// A call on tables, and what the first columns of its row say.
pub struct Case {
    pub columns: Vec<Cell>,
    pub lent: Lent,
    pub call: Call,
}

impl Case {
    pub fn new(columns: Vec<Cell>, lent: Lent, call: Call) -> Case {
        Case {
            columns,
            lent,
            call,
        }
    }

    /// The case with a further column: the places that the call lists or changes.
    pub fn with_places(mut self) -> Case {
        self.columns.push(Cell::Number(self.places()));
        self
    }

    /// The least times, without the clock's own. A call that changes words is timed alone, on
    /// restored words; of others many are timed together.
    pub fn time(&self, rounds: u32) -> Times {
        const RUNS: u32 = 100;
        let together = if self.changes_words() { 1 } else { 100 };
        let mut lent = self.lent.clone();
        let mut best = [Duration::MAX; 4];
        let timed = [
            (Call::Clock, Side::Model),
            (Call::Reading, Side::Model),
            (self.call, Side::Model),
            (self.call, Side::Proved),
        ];
        for _ in 0..rounds {
            for (best, (call, side)) in best.iter_mut().zip(timed) {
                for _ in 0..RUNS {
                    lent.clone_from(&self.lent);
                    let start = Instant::now();
                    for _ in 0..together {
                        black_box(black_box(call).run(side, black_box(&mut lent)));
                    }
                    *best = start.elapsed().min(*best);
                }
            }
        }
        let [clock, others @ ..] = best;
        let [reading, model, proved] =
            others.map(|best| best.saturating_sub(clock).as_nanos() as f64 / f64::from(together));
        Times {
            reading,
            sides: [model, proved],
        }
    }

    /// What a side replies and leaves.
    fn outcome(&self, side: Side) -> (u64, Lent) {
        let mut lent = self.lent.clone();
        (self.call.run(side, &mut lent), lent)
    }

    /// Whether the call changes a word other than of a list.
    fn changes_words(&self) -> bool {
        let (_, mut left) = self.outcome(Side::Model);
        left.list = self.lent.list;
        left != self.lent
    }

    /// Places that the call lists or changes.
    pub fn places(&self) -> u64 {
        let (reply, left) = self.outcome(Side::Model);
        match self.call {
            Call::Census(_) => u64::from(reply as u32),
            _ => {
                let pairs = self.lent.rows().iter().zip(left.rows());
                pairs.filter(|(before, after)| before != after).count() as u64
            }
        }
    }

    /// Both sides must succeed, answer the same and leave the same words.
    pub fn verify(&self) -> io::Result<()> {
        let [(model, left), (proved, proved_left)] = SIDES.map(|side| self.outcome(side));
        let succeeds = match self.call {
            Call::DamageTest => model == 1,
            _ => model >> 32 == 0,
        };
        if succeeds && model == proved && left == proved_left {
            Ok(())
        } else {
            let name: Vec<String> = self.columns.iter().map(Cell::text).collect();
            let text = format!("refused, or the sides differ: {}", name.join(", "));
            Err(io::Error::other(text))
        }
    }
}

/// Nanoseconds: of reading the tables, and of the call by the model and by the proved code.
pub struct Times {
    pub reading: f64,
    pub sides: [f64; 2],
}
