//! Reading and writing information pages: by the model, by the model's tests without
//! its lists, and through the archive.

use std::hint::black_box;
use std::io;
use std::time::{Duration, Instant};

use model::hip::{
    self, sum, type_name, Contents, Cpu, Header, Lists, Memory, Refusal, WriteRefusal, CHECKSUM,
    CPU_BYTES, CPU_OFFSET, CPU_SIZE, FIELDS, FIRST_FIELD, HEADER_BYTES, LENGTH, LENGTH_LIMIT,
    MEMORY_BYTES, MEMORY_OFFSET, MEMORY_SIZE, SIGNATURE, TYPE,
};
use model::page_generator::{written, ALLOWED_TYPES, MEMORY_LIMIT};
use model::random::Random;

use crate::counting::{measured, of_calls};
use crate::markdown::{grouped, line, ratio, short, table};
use crate::COUNT;

/// The section's name.
pub const PAGES: &str = "pages";

extern "C" {
    fn rudozhev_hip_read(page: *const u8, page_bytes: usize, fields: *mut [u32; FIELDS]) -> u64;
    fn rudozhev_hip_cpu(page: *const u8, page_bytes: usize, index: u32) -> u64;
    fn rudozhev_hip_memory(
        page: *const u8,
        page_bytes: usize,
        index: u32,
        numbers: *mut [u64; 3],
    ) -> i32;
    fn rudozhev_hip_write(
        fields: *const [u32; FIELDS],
        cpus: *const u8,
        cpu_bytes: usize,
        addresses: *const u64,
        address_count: usize,
        sizes: *const u64,
        size_count: usize,
        types: *const i32,
        type_count: usize,
        auxiliaries: *const u32,
        auxiliary_count: usize,
        buffer: *mut u8,
        buffer_bytes: usize,
    ) -> u64;
}

#[derive(Clone, Copy)]
enum Side {
    /// As it stands: it reads into lists of all descriptors, and writes by way of a list.
    Model,
    /// The same tests in the same order, with the same sum, without a list.
    WithoutLists,
    Proved,
}

const SIDES: [Side; 3] = [Side::Model, Side::WithoutLists, Side::Proved];

/// What the columns of both tables are called.
const TIMES: [&str; 7] = [
    "bytes",
    "call",
    "model, ns",
    "model without lists, ns",
    "proved, ns",
    "proved / model",
    "proved / model without lists",
];
const INSTRUCTIONS: [&str; 7] = [
    "bytes",
    "call",
    "model",
    "model without lists",
    "proved",
    "proved / model",
    "proved / model without lists",
];

/// What is measured on a page.
#[derive(Clone, Copy)]
enum Call {
    Read,
    /// The CPU descriptor of an index.
    Cpu(u32),
    /// The memory descriptor of an index.
    Memory(u32),
    Write,
}

/// What a call may read and write.
#[derive(Clone, PartialEq)]
struct Lent {
    page: Vec<u8>,
    contents: Contents,
    lists: Lists,
    fields: [u32; FIELDS],
    numbers: [u64; 3],
    buffer: Vec<u8>,
}

impl Lent {
    /// A page of so many descriptors, of any numbers and allowed types.
    fn new(cpus: usize, memories: usize) -> Lent {
        let mut random = Random::new(1);
        let mut word = || random.word();
        let contents = Contents {
            header: Header::from_fields([(); FIELDS].map(|()| word())),
            cpus: (0..cpus)
                .map(|_| Cpu::from_bytes(word().to_le_bytes()))
                .collect(),
            memory: (0..memories)
                .map(|_| Memory {
                    address: u64::from(word()) << 12,
                    size: word().into(),
                    kind: ALLOWED_TYPES[word() as usize % ALLOWED_TYPES.len()],
                    auxiliary: word(),
                })
                .collect(),
        };
        let page = written(&contents);
        Lent {
            buffer: vec![0; page.len()],
            page,
            lists: contents.lists(),
            contents,
            fields: [0; FIELDS],
            numbers: [0; 3],
        }
    }
}

/// A refusal in the high half, or what is answered in the low half.
fn packed(reply: Result<u64, u32>) -> u64 {
    reply.unwrap_or_else(|refusal| u64::from(refusal) << 32)
}

fn packed_counts(cpus: usize, memories: usize) -> u64 {
    (memories as u64) << 16 | cpus as u64
}

fn packed_cpu(cpu: Option<[u8; CPU_BYTES]>) -> u64 {
    cpu.map_or(0, |bytes| 1 << 32 | u64::from(u32::from_le_bytes(bytes)))
}

/// The type of a memory descriptor, whose numbers are written; 0 where there is none.
fn packed_memory(memory: Option<Memory>, numbers: &mut [u64; 3]) -> u64 {
    memory.map_or(0, |memory| {
        *numbers = [memory.address, memory.size, memory.auxiliary.into()];
        memory.kind as u32 as u64
    })
}

impl Call {
    /// Makes the call; the reply is one number, as the archive's functions give it.
    fn run(self, side: Side, lent: &mut Lent) -> u64 {
        let Lent {
            page,
            contents,
            lists,
            fields,
            numbers,
            buffer,
        } = lent;
        match (self, side) {
            (Call::Read, Side::Model) => packed(
                hip::read(page)
                    .map(|page| {
                        *fields = page.contents.header.fields();
                        packed_counts(page.contents.cpus.len(), page.contents.memory.len())
                    })
                    .map_err(Refusal::number),
            ),
            (Call::Cpu(index), Side::Model) => {
                packed_cpu(hip::cpu(page, index as usize).map(|cpu| cpu.bytes()))
            }
            (Call::Memory(index), Side::Model) => {
                packed_memory(hip::memory(page, index as usize), numbers)
            }
            (Call::Write, Side::Model) => packed(
                hip::write(contents, buffer)
                    .map(|length| length as u64)
                    .map_err(WriteRefusal::number),
            ),
            (Call::Read, Side::WithoutLists) => packed(
                parts(page)
                    .map(|(cpus, memories)| {
                        *fields = read_fields(page);
                        packed_counts(cpus.len(), memories.len())
                    })
                    .map_err(Refusal::number),
            ),
            (Call::Cpu(index), Side::WithoutLists) => {
                let cpus = parts(page).map_or(&[][..], |(cpus, _)| cpus);
                packed_cpu(cpus.get(index as usize).copied())
            }
            (Call::Memory(index), Side::WithoutLists) => {
                let memories = parts(page).map_or(&[][..], |(_, memories)| memories);
                let memory = memories.get(index as usize).map(Memory::from_bytes);
                packed_memory(memory, numbers)
            }
            (Call::Write, Side::WithoutLists) => packed(
                write(&contents.header, lists, buffer)
                    .map(|length| length as u64)
                    .map_err(WriteRefusal::number),
            ),
            // SAFETY, here and below: the slices are valid for their lengths and do not
            // overlap, and the functions keep none.
            (Call::Read, Side::Proved) => unsafe {
                rudozhev_hip_read(page.as_ptr(), page.len(), fields)
            },
            (Call::Cpu(index), Side::Proved) => unsafe {
                rudozhev_hip_cpu(page.as_ptr(), page.len(), index)
            },
            (Call::Memory(index), Side::Proved) => unsafe {
                rudozhev_hip_memory(page.as_ptr(), page.len(), index, numbers) as u32 as u64
            },
            (Call::Write, Side::Proved) => unsafe {
                rudozhev_hip_write(
                    &contents.header.fields(),
                    lists.cpus.as_ptr(),
                    lists.cpus.len(),
                    lists.addresses.as_ptr(),
                    lists.addresses.len(),
                    lists.sizes.as_ptr(),
                    lists.sizes.len(),
                    lists.types.as_ptr(),
                    lists.types.len(),
                    lists.auxiliaries.as_ptr(),
                    lists.auxiliaries.len(),
                    buffer.as_mut_ptr(),
                    buffer.len(),
                )
            },
        }
    }
}

/// A number of 16 bits in a page.
fn half(page: &[u8], at: usize) -> usize {
    usize::from(u16::from_le_bytes([page[at], page[at + 1]]))
}

/// The CPU descriptors and the memory descriptors of a page, as parts of it.
type Parts<'a> = (&'a [[u8; CPU_BYTES]], &'a [[u8; MEMORY_BYTES]]);

/// The parts of a page that passes the model's tests.
fn parts(page: &[u8]) -> Result<Parts<'_>, Refusal> {
    if page.len() < HEADER_BYTES {
        return Err(Refusal::Short);
    }
    if !page.starts_with(&SIGNATURE) {
        return Err(Refusal::Signature);
    }
    let length = half(page, LENGTH);
    if length != page.len() {
        return Err(Refusal::Length);
    }
    let memory_offset = half(page, MEMORY_OFFSET);
    if half(page, CPU_OFFSET) != HEADER_BYTES
        || half(page, CPU_SIZE) != CPU_BYTES
        || half(page, MEMORY_SIZE) != MEMORY_BYTES
        || memory_offset < HEADER_BYTES
        || memory_offset > length
        || !(memory_offset - HEADER_BYTES).is_multiple_of(CPU_BYTES)
        || !(length - memory_offset).is_multiple_of(MEMORY_BYTES)
    {
        return Err(Refusal::Layout);
    }
    if sum(page) != 0 {
        return Err(Refusal::Checksum);
    }
    let (cpus, _) = page[HEADER_BYTES..memory_offset].as_chunks();
    let (memories, _) = page[memory_offset..].as_chunks();
    let is_allowed = |memory: &[u8; MEMORY_BYTES]| {
        let kind = [TYPE, TYPE + 1, TYPE + 2, TYPE + 3].map(|byte| memory[byte]);
        type_name(i32::from_le_bytes(kind)).is_some()
    };
    if !memories.iter().all(is_allowed) {
        return Err(Refusal::Type);
    }
    Ok((cpus, memories))
}

/// The fields of an accepted page.
fn read_fields(page: &[u8]) -> [u32; FIELDS] {
    let (fields, _) = page[FIRST_FIELD..HEADER_BYTES].as_chunks::<4>();
    std::array::from_fn(|field| u32::from_le_bytes(fields[field]))
}

/// Writes a page from lists straight into the buffer, after the model's tests.
fn write(header: &Header, lists: &Lists, buffer: &mut [u8]) -> Result<usize, WriteRefusal> {
    let (cpus, _) = lists.cpus.as_chunks::<CPU_BYTES>();
    let lengths = [
        lists.addresses.len(),
        lists.sizes.len(),
        lists.types.len(),
        lists.auxiliaries.len(),
    ];
    let count = lengths.into_iter().min().unwrap_or(0);
    let is_allowed = |&kind: &i32| type_name(kind).is_some();
    if !lists.types[..count].iter().all(is_allowed) {
        return Err(WriteRefusal::Type);
    }
    let memory_offset = HEADER_BYTES + CPU_BYTES * cpus.len();
    let length = memory_offset + MEMORY_BYTES * count;
    if length > LENGTH_LIMIT {
        return Err(WriteRefusal::Large);
    }
    let page = buffer.get_mut(..length).ok_or(WriteRefusal::Room)?;
    page[..CHECKSUM].copy_from_slice(&SIGNATURE);
    for (at, number) in [
        (CHECKSUM, 0),
        (LENGTH, length),
        (CPU_OFFSET, HEADER_BYTES),
        (CPU_SIZE, CPU_BYTES),
        (MEMORY_OFFSET, memory_offset),
        (MEMORY_SIZE, MEMORY_BYTES),
    ] {
        page[at..at + 2].copy_from_slice(&(number as u16).to_le_bytes());
    }
    let fields = header.fields().map(u32::to_le_bytes);
    page[FIRST_FIELD..HEADER_BYTES].copy_from_slice(fields.as_flattened());
    page[HEADER_BYTES..memory_offset].copy_from_slice(cpus.as_flattened());
    let (memories, _) = page[memory_offset..].as_chunks_mut::<MEMORY_BYTES>();
    for (index, memory) in memories.iter_mut().enumerate() {
        *memory = Memory {
            address: lists.addresses[index],
            size: lists.sizes[index],
            kind: lists.types[index],
            auxiliary: lists.auxiliaries[index],
        }
        .bytes();
    }
    let checksum = sum(page).wrapping_neg();
    page[CHECKSUM..LENGTH].copy_from_slice(&checksum.to_le_bytes());
    Ok(length)
}

/// A call on a page, and its name.
struct Case {
    name: &'static str,
    lent: Lent,
    call: Call,
}

/// Reading, the last descriptor of each sort and writing, on a usual page and on the longest
/// that has a CPU.
fn cases() -> Vec<Case> {
    let pages = [(4, 20), (1, MEMORY_LIMIT)];
    let calls = |(cpus, memories): (usize, usize)| {
        let lent = Lent::new(cpus, memories);
        [
            ("read", Call::Read),
            ("CPU descriptor", Call::Cpu(cpus as u32 - 1)),
            ("memory descriptor", Call::Memory(memories as u32 - 1)),
            ("write", Call::Write),
        ]
        .map(|(name, call)| Case {
            name,
            lent: lent.clone(),
            call,
        })
    };
    pages.into_iter().flat_map(calls).collect()
}

impl Case {
    /// What a side replies and leaves.
    fn outcome(&self, side: Side) -> (u64, Lent) {
        let mut lent = self.lent.clone();
        (self.call.run(side, &mut lent), lent)
    }

    /// All sides must answer the same and leave the same, and no call is refused.
    fn verify(&self) -> io::Result<()> {
        let [model, without_lists, proved] = SIDES.map(|side| self.outcome(side));
        let succeeds = match self.call {
            Call::Read | Call::Write => model.0 >> 32 == 0,
            Call::Cpu(_) | Call::Memory(_) => model.0 != 0,
        };
        // What is written is the page that is read.
        let is_page = match self.call {
            Call::Write => proved.1.buffer == self.lent.page,
            _ => proved.1.page == self.lent.page,
        };
        if succeeds && is_page && model == without_lists && model == proved {
            Ok(())
        } else {
            let text = format!("refused, or the sides differ: {}", self.name);
            Err(io::Error::other(text))
        }
    }

    /// The least times in nanoseconds of a call by each side, in turns, many timed together.
    fn time(&self, rounds: u32) -> [f64; 3] {
        const RUNS: u32 = 20;
        const TOGETHER: u32 = 100;
        let mut lent = self.lent.clone();
        let mut best = [Duration::MAX; 3];
        for _ in 0..rounds {
            for (best, side) in best.iter_mut().zip(SIDES) {
                for _ in 0..RUNS {
                    let start = Instant::now();
                    for _ in 0..TOGETHER {
                        black_box(black_box(self.call).run(side, black_box(&mut lent)));
                    }
                    *best = start.elapsed().min(*best);
                }
            }
        }
        best.map(|best| best.as_nanos() as f64 / f64::from(TOGETHER))
    }
}

/// Makes each call once by each side, after one that is not counted.
pub fn count_once() {
    for Case { lent, call, .. } in cases() {
        for side in SIDES {
            let mut lent = lent.clone();
            call.run(side, &mut lent);
            measured(&mut || {
                black_box(black_box(call).run(side, black_box(&mut lent)));
            });
        }
    }
}

/// Measures and prints the section of the document.
pub fn measure(rounds: u32) -> io::Result<()> {
    line("## The information page");
    eprintln!("{PAGES}");
    let cases = cases();
    let counts = of_calls(&[COUNT, PAGES])?;
    let (counts, []) = counts.as_chunks::<3>() else {
        return Err(io::Error::other("callgrind missed a call"));
    };
    if counts.len() != cases.len() {
        return Err(io::Error::other("callgrind missed a call"));
    }
    let (mut times, mut instructions) = (Vec::new(), Vec::new());
    for (case, counts) in cases.iter().zip(counts) {
        case.verify()?;
        times.push(row(case, case.time(rounds)));
        instructions.push(row(case, counts.map(|count| count as f64)));
    }
    line("Times:");
    table(&TIMES, &times);
    line("Instructions:");
    table(&INSTRUCTIONS, &instructions);
    Ok(())
}

fn row(case: &Case, figures: [f64; 3]) -> Vec<String> {
    let [model, without_lists, proved] = figures;
    let first = [grouped(case.lent.page.len() as u64), case.name.to_string()];
    let ratios = [ratio(proved, model), ratio(proved, without_lists)];
    let figures = figures.map(short);
    first.into_iter().chain(figures).chain(ratios).collect()
}
