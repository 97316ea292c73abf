//! The proved functions of the information page beside the model: both get the
//! same bytes and lists, and what they answer and write is compared.

#[path = "../comparison/same.rs"]
mod same;

use std::cmp::Ordering;
use std::collections::BTreeMap;

use model::hip::{self as model_hip, Contents, Lists};
use model::page_generator::{buffer, contents, damaged_page, lists};
use model::random::Random;
use rudozhev::hip::{
    self, Counts, Cpu, Header, Memory, MemoryLists, MemoryType, Page, PageRefusal, WriteRefusal,
    FIELDS,
};
use rudozhev::words;

pub use same::Difference;
use same::{same, same_list};

/// The model's refusal of the reader as the crate gives it.
fn expected_refusal(refusal: model_hip::Refusal) -> PageRefusal {
    match refusal {
        model_hip::Refusal::Short => PageRefusal::Short,
        model_hip::Refusal::Signature => PageRefusal::Signature,
        model_hip::Refusal::Length => PageRefusal::Length,
        model_hip::Refusal::Layout => PageRefusal::Layout,
        model_hip::Refusal::Checksum => PageRefusal::Checksum,
        model_hip::Refusal::Type => PageRefusal::Type,
    }
}

/// The model's refusal of the writer as the crate gives it.
fn expected_write_refusal(refusal: model_hip::WriteRefusal) -> WriteRefusal {
    match refusal {
        model_hip::WriteRefusal::Type => WriteRefusal::Type,
        model_hip::WriteRefusal::Large => WriteRefusal::Large,
        model_hip::WriteRefusal::Room => WriteRefusal::Room,
    }
}

fn expected_memory(memory: model_hip::Memory) -> Option<Memory> {
    let model_hip::Memory { address, size, kind, auxiliary } = memory;
    Some(Memory { address, size, kind: MemoryType::from_number(kind)?, auxiliary })
}

fn expected_cpu(cpu: model_hip::Cpu) -> Cpu {
    Cpu::from_bytes(cpu.bytes())
}

/// A comparison in progress: its source of numbers and what was compared.
pub struct PageComparison {
    random: Random,
    /// Pages that were read by the number of their refusal, 0 for those that were accepted.
    pub read: BTreeMap<u32, u64>,
    /// Pages that were written by the number of their refusal, 0 for none.
    pub written: BTreeMap<u32, u64>,
    /// Writes into buffers that were shorter than the page, as long and longer.
    pub buffers: [u64; 3],
    /// CPU and memory descriptors that were asked for and found.
    pub found: [u64; 2],
    /// CPU and memory descriptors that were asked for and not there.
    pub missing: [u64; 2],
}

impl PageComparison {
    pub fn new(seed: u64) -> PageComparison {
        PageComparison {
            random: Random::new(seed),
            read: BTreeMap::new(),
            written: BTreeMap::new(),
            buffers: [0; 3],
            found: [0; 2],
            missing: [0; 2],
        }
    }

    /// Pages that were read.
    pub fn pages(&self) -> u64 {
        self.read.values().sum()
    }

    /// Reads a page and descriptors of it.
    pub fn read(&mut self, bytes: &[u8]) -> Result<(), Difference> {
        let before = [(); FIELDS].map(|()| self.random.word());
        let mut fields = before;
        let reply = words::hip_read(bytes, &mut fields);
        let model = model_hip::read(bytes);
        let refusal = model.as_ref().err().copied();
        *self.read.entry(refusal.map_or(0, model_hip::Refusal::number)).or_default() += 1;
        let counts = |contents: &Contents| Counts {
            cpus: contents.cpus.len() as u32,
            memories: contents.memory.len() as u32,
        };
        let expected = match &model {
            Ok(page) => Ok(counts(&page.contents)),
            Err(refusal) => Err(expected_refusal(*refusal)),
        };
        same("reply of a read", reply, expected)?;
        let expected = model.as_ref().map_or(before, |page| page.contents.header.fields());
        same_list("the fields", &fields, &expected)?;
        let contents = model.map(|page| page.contents).unwrap_or_default();
        for index in self.indices(contents.cpus.len()) {
            self.cpu(bytes, index)?;
        }
        for index in self.indices(contents.memory.len()) {
            self.memory(bytes, index)?;
        }
        match reply {
            Ok(_) => self.typed(bytes, &contents)?,
            Err(refusal) => same("typed refusal", Page::read(bytes), Err(refusal))?,
        }
        self.read_start(bytes)
    }

    fn cpu(&mut self, bytes: &[u8], index: u32) -> Result<(), Difference> {
        let cpu = words::hip_cpu(bytes, index);
        let model = model_hip::cpu(bytes, index as usize).map(|cpu| cpu.bytes());
        self.count(0, model.is_some());
        same(&format!("CPU {index}"), cpu, model)
    }

    fn memory(&mut self, bytes: &[u8], index: u32) -> Result<(), Difference> {
        let before = [(); 3].map(|()| u64::from(self.random.word()) << 32 | 1);
        let mut numbers = before;
        let kind = words::hip_memory(bytes, index, &mut numbers);
        let model = model_hip::memory(bytes, index as usize);
        self.count(1, model.is_some());
        same(&format!("type of memory {index}"), kind, model.map(|memory| memory.kind))?;
        let expected = model
            .map_or(before, |memory| [memory.address, memory.size, u64::from(memory.auxiliary)]);
        same(&format!("numbers of memory {index}"), numbers, expected)
    }

    /// Counts a descriptor that was asked for.
    fn count(&mut self, sort: usize, is_there: bool) {
        let counts = if is_there { &mut self.found } else { &mut self.missing };
        counts[sort] += 1;
    }

    /// The typed page of accepted bytes; and what it reads as is written as the same bytes.
    fn typed(&mut self, bytes: &[u8], contents: &Contents) -> Result<(), Difference> {
        /// Each descriptor takes a test of the whole page.
        const MOST: usize = 80;
        let page = Page::read(bytes).map_err(|refusal| format!("typed read: {refusal}"))?;
        same("typed header", page.header().fields(), contents.header.fields())?;
        same("typed bytes", page.bytes(), bytes)?;
        if contents.cpus.len() + contents.memory.len() > MOST {
            return Ok(());
        }
        let cpus: Vec<Cpu> = page.cpus().collect();
        let memories: Vec<Memory> = page.memories().collect();
        let (model_cpus, model_memories) = (contents.cpus.iter(), contents.memory.iter());
        same("typed CPUs", &cpus, &model_cpus.copied().map(expected_cpu).collect())?;
        same(
            "typed memory",
            &memories,
            &model_memories.copied().filter_map(expected_memory).collect(),
        )?;
        let mut again = vec![0; bytes.len()];
        let length = write_typed(&page.header(), &cpus, &memories, &mut again);
        same("length of a page written again", length, Ok(bytes.len()))?;
        same_list("a page written again", &again, bytes)
    }

    /// The page that memory begins with.
    fn read_start(&mut self, memory: &[u8]) -> Result<(), Difference> {
        let length =
            memory.get(6..8).map_or(0, |bytes| bytes[0] as usize | (bytes[1] as usize) << 8);
        let page = &memory[..length.min(memory.len())];
        let found = Page::read_start(memory).map(|page| page.bytes());
        let model = model_hip::read(page).map(|_| page).map_err(expected_refusal);
        same("start of memory", found, model)
    }

    /// Indices below a count, not all of many, and indices that are not.
    fn indices(&mut self, count: usize) -> Vec<u32> {
        const MOST: u32 = 40;
        let count = count as u32;
        let mut indices: Vec<u32> = match count {
            0..=MOST => (0..count).collect(),
            _ => [0, 1, count - 2, count - 1].into(),
        };
        if count > MOST {
            indices.extend((0..8).map(|_| self.random.below(count)));
        }
        // Some would be small again if they were multiplied by 4 or 24 in 32 bits.
        let far = [count + 1, 1 << 14, 1 << 16, 178_956_971, 1 << 29, 1 << 30, 1 << 31, u32::MAX];
        indices.extend([count, self.random.word().max(count)]);
        indices.extend(self.random.pick(&far).map(|far| far.max(count)));
        indices
    }

    /// Writes a page from lists into a buffer, and reads what was written.
    pub fn write(
        &mut self,
        header: model_hip::Header,
        lists: &Lists,
        buffer: &[u8],
    ) -> Result<(), Difference> {
        let contents = lists.contents(header);
        let (mut proved, mut other) = (buffer.to_vec(), buffer.to_vec());
        let Lists { cpus, addresses, sizes, types, auxiliaries } = lists;
        let fields = header.fields();
        let reply =
            words::hip_write(&fields, cpus, addresses, sizes, types, auxiliaries, &mut proved);
        let model = model_hip::write(&contents, &mut other).map_err(expected_write_refusal);
        *self.written.entry(model.err().map_or(0, WriteRefusal::number)).or_default() += 1;
        self.buffers[match buffer.len().cmp(&contents.length()) {
            Ordering::Less => 0,
            Ordering::Equal => 1,
            Ordering::Greater => 2,
        }] += 1;
        same("reply of a write", reply, model)?;
        same_list("the buffer", &proved, &other)?;
        if reply.is_err() {
            same_list("the buffer of a refused write", &proved, buffer)?;
        }

        let memories: Option<Vec<Memory>> =
            contents.memory.iter().copied().map(expected_memory).collect();
        if let Some(memories) = memories {
            let cpus: Vec<Cpu> = contents.cpus.iter().copied().map(expected_cpu).collect();
            let mut typed = buffer.to_vec();
            let length = write_typed(&Header::from_fields(fields), &cpus, &memories, &mut typed);
            same("reply of a typed write", length, model)?;
            same_list("the buffer of a typed write", &typed, &other)?;
        }
        match reply {
            Ok(length) => {
                let page = &proved[..length];
                let read = model_hip::read(page).map(|page| page.contents);
                same("a written page", read, Ok(contents))?;
                self.read(page)
            }
            Err(_) => Ok(()),
        }
    }

    /// Reads a page with flaws, and writes one from lists that may have more than is read.
    pub fn round(&mut self) -> Result<(), Difference> {
        let page = damaged_page(&mut self.random);
        self.read(&page)?;
        let contents = contents(&mut self.random);
        let lists = lists(&mut self.random, &contents);
        let buffer = buffer(&mut self.random, contents.length());
        self.write(contents.header, &lists, &buffer)
    }
}

/// Writes a page by the typed interface.
fn write_typed(
    header: &Header,
    cpus: &[Cpu],
    memories: &[Memory],
    buffer: &mut [u8],
) -> Result<usize, WriteRefusal> {
    let addresses: Vec<u64> = memories.iter().map(|memory| memory.address).collect();
    let sizes: Vec<u64> = memories.iter().map(|memory| memory.size).collect();
    let kinds: Vec<MemoryType> = memories.iter().map(|memory| memory.kind).collect();
    let auxiliaries: Vec<u32> = memories.iter().map(|memory| memory.auxiliary).collect();
    let lists = MemoryLists::new(&addresses, &sizes, &kinds, &auxiliaries).expect("equal lists");
    hip::write(header, cpus, lists, buffer)
}
