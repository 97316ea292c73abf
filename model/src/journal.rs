//! Journals: records of hypercalls as bytes, and their replay from boot.

use std::fmt::{self, Write};

use crate::calls::{Arguments, Hypercall};
use crate::layout::{BLOCK_WORDS, OBJECT_WORDS, PLACE_WORDS};
use crate::status::{Reply, Status};
use crate::tables::Tables;

/// Both tables from boot on, and the hypercalls run on them.
#[derive(Clone)]
pub struct Machine {
    pub places: [u32; PLACE_WORDS],
    pub objects: [u32; OBJECT_WORDS],
}

impl Machine {
    /// A machine just booted.
    pub fn boot() -> Machine {
        let mut machine = Machine {
            places: [0; PLACE_WORDS],
            objects: [0; OBJECT_WORDS],
        };
        crate::boot(&mut machine.places, &mut machine.objects);
        machine
    }

    /// Runs a record; a CALL changes the record's target block.
    pub fn run(&mut self, record: &mut Record) -> Reply {
        crate::hypercall(
            record.hypercall.number(),
            record.caller,
            record.arguments,
            &mut self.places,
            &mut self.objects,
            &record.source,
            &mut record.target,
        )
    }

    /// Runs a record as `run` does on sound tables, which those from boot on are, without
    /// the damage test.
    pub fn serve(&mut self, record: &mut Record) -> Reply {
        match Tables::sized(&mut self.places, &mut self.objects) {
            Some(tables) => crate::serve(
                record.hypercall.number(),
                record.caller,
                record.arguments,
                tables,
                &record.source,
                &mut record.target,
            ),
            None => Reply::refused(Status::Damaged),
        }
    }
}

impl Default for Machine {
    fn default() -> Machine {
        Machine::boot()
    }
}

/// One hypercall of a journal; the blocks belong to CALL only.
#[derive(Clone, PartialEq, Eq, Debug)]
pub struct Record {
    pub hypercall: Hypercall,
    pub caller: u32,
    pub arguments: Arguments,
    pub source: [u32; BLOCK_WORDS],
    pub target: [u32; BLOCK_WORDS],
}

/// Why no record could be read.
#[derive(Clone, Copy, PartialEq, Eq, Debug)]
pub enum Stop {
    /// The bytes end inside a record.
    Cut,
    /// The kind byte names no hypercall that is built.
    Bad(u8),
}

impl fmt::Display for Stop {
    fn fmt(&self, out: &mut fmt::Formatter) -> fmt::Result {
        match self {
            Stop::Cut => out.write_str("cut"),
            Stop::Bad(kind) => write!(out, "bad {kind}"),
        }
    }
}

const WORD_BYTES: usize = 4;

/// Number of arguments between the caller and any blocks.
pub const fn argument_count(hypercall: Hypercall) -> usize {
    match hypercall {
        Hypercall::Call | Hypercall::Lookup => 1,
        Hypercall::Revoke | Hypercall::SmCtrl => 2,
        Hypercall::CreatePd | Hypercall::CreateSm => 3,
        Hypercall::CreateEc | Hypercall::CreateSc => 4,
        Hypercall::CreatePt => 6,
    }
}

/// Number of bytes after the kind byte.
pub const fn body_bytes(hypercall: Hypercall) -> usize {
    let blocks = match hypercall {
        Hypercall::Call => 2 * BLOCK_WORDS,
        _ => 0,
    };
    (1 + argument_count(hypercall) + blocks) * WORD_BYTES
}

fn read_words(bytes: &[u8], words: &mut [u32]) {
    for (word, bytes) in words.iter_mut().zip(bytes.as_chunks().0) {
        *word = u32::from_le_bytes(*bytes);
    }
}

impl Record {
    /// A record without arguments, as a start for reading or building one.
    pub const fn empty(hypercall: Hypercall) -> Record {
        Record {
            hypercall,
            caller: 0,
            arguments: [0; 6],
            source: [0; BLOCK_WORDS],
            target: [0; BLOCK_WORDS],
        }
    }

    /// Reads the record at the start of the bytes over this one and gives the bytes after it.
    pub fn read<'a>(&mut self, bytes: &'a [u8]) -> Result<&'a [u8], Stop> {
        let (&kind, rest) = bytes.split_first().ok_or(Stop::Cut)?;
        self.hypercall = Hypercall::from_number(kind.into()).ok_or(Stop::Bad(kind))?;
        let (body, rest) = rest
            .split_at_checked(body_bytes(self.hypercall))
            .ok_or(Stop::Cut)?;
        let (caller, body) = body.split_at(WORD_BYTES);
        let count = argument_count(self.hypercall);
        let (arguments, blocks) = body.split_at(count * WORD_BYTES);
        read_words(caller, std::slice::from_mut(&mut self.caller));
        read_words(arguments, &mut self.arguments[..count]);
        if self.hypercall == Hypercall::Call {
            let (source, target) = blocks.split_at(BLOCK_WORDS * WORD_BYTES);
            read_words(source, &mut self.source);
            read_words(target, &mut self.target);
        }
        Ok(rest)
    }

    /// Appends this record's bytes.
    pub fn write(&self, bytes: &mut Vec<u8>) {
        bytes.push(self.hypercall.number() as u8);
        let mut put = |words: &[u32]| {
            bytes.extend(words.iter().flat_map(|word| word.to_le_bytes()));
        };
        put(&[self.caller]);
        put(&self.arguments[..argument_count(self.hypercall)]);
        if self.hypercall == Hypercall::Call {
            put(&self.source);
            put(&self.target);
        }
    }
}

/// A replay in progress: the machine and the bytes not yet read.
pub struct Replay<'a> {
    pub machine: Machine,
    /// The record run last, its target block as the call left it.
    pub record: Record,
    rest: &'a [u8],
    done: u64,
}

/// What a step of a replay did.
#[derive(Clone, Copy, PartialEq, Eq, Debug)]
pub enum Step {
    /// The record at this index was run.
    Ran(u64, Reply),
    /// Reading stopped before the end.
    Stopped(Stop),
    /// All bytes are read; this many records were run.
    Ended(u64),
}

impl<'a> Replay<'a> {
    pub fn new(bytes: &'a [u8]) -> Replay<'a> {
        Replay {
            machine: Machine::boot(),
            record: Record::empty(Hypercall::Call),
            rest: bytes,
            done: 0,
        }
    }

    /// Reads and runs one record. Nothing is read after a stop.
    pub fn step(&mut self) -> Step {
        self.step_by(Machine::run)
    }

    /// Reads one record and runs it in the given way.
    fn step_by(&mut self, run: impl FnOnce(&mut Machine, &mut Record) -> Reply) -> Step {
        if self.rest.is_empty() {
            return Step::Ended(self.done);
        }
        match self.record.read(self.rest) {
            Ok(rest) => {
                self.rest = rest;
                let index = self.done;
                self.done += 1;
                Step::Ran(index, run(&mut self.machine, &mut self.record))
            }
            Err(stop) => {
                self.rest = &[];
                Step::Stopped(stop)
            }
        }
    }
}

/// Writes a replay's lines, each record run in the given way, and after each record's what `more` adds.
fn write_replay<W: Write>(
    bytes: &[u8],
    out: &mut W,
    run: impl Fn(&mut Machine, &mut Record) -> Reply,
    mut more: impl FnMut(&Replay, &mut W) -> fmt::Result,
) -> fmt::Result {
    let mut replay = Replay::new(bytes);
    loop {
        match replay.step_by(&run) {
            Step::Ran(index, Reply { status, answer }) => {
                let kind = replay.record.hypercall.number();
                writeln!(out, "{index} {kind} {} {answer}", status.number())?;
                more(&replay, out)?;
            }
            Step::Stopped(stop) => writeln!(out, "{stop}")?,
            Step::Ended(done) => return writeln!(out, "end {done}"),
        }
    }
}

fn lines_by(bytes: &[u8], run: impl Fn(&mut Machine, &mut Record) -> Reply) -> String {
    let mut out = String::new();
    write_replay(bytes, &mut out, run, |_, _| Ok(())).expect("a string takes every write");
    out
}

/// The lines that the replay program prints for a journal.
pub fn lines(bytes: &[u8]) -> String {
    lines_by(bytes, Machine::run)
}

/// The same lines, made without a damage test before each call.
pub fn lines_without_test(bytes: &[u8]) -> String {
    lines_by(bytes, Machine::serve)
}

/// The lines with, after each record's, hashes of both tables and of the
/// target block that a CALL left.
pub fn trace(bytes: &[u8]) -> String {
    let mut out = String::new();
    write_replay(bytes, &mut out, Machine::run, |replay, out| {
        let block: &[u32] = match replay.record.hypercall {
            Hypercall::Call => &replay.record.target,
            _ => &[],
        };
        let places = hash(&replay.machine.places);
        let objects = hash(&replay.machine.objects);
        writeln!(
            out,
            "places {places:016x} objects {objects:016x} block {:016x}",
            hash(block)
        )
    })
    .expect("a string takes every write");
    out
}

/// The FNV-1a hash of 64 bits over words as little-endian bytes.
pub fn hash(words: &[u32]) -> u64 {
    const OFFSET_BASIS: u64 = 0xcbf2_9ce4_8422_2325;
    const PRIME: u64 = 0x0000_0100_0000_01b3;
    let bytes = words.iter().flat_map(|word| word.to_le_bytes());
    bytes.fold(OFFSET_BASIS, |hash, byte| {
        (hash ^ u64::from(byte)).wrapping_mul(PRIME)
    })
}
