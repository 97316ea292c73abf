//! Random information pages: contents to write, pages that are accepted, and
//! pages with flaws, where the checksum is mended in about half of the cases so
//! that the tests around it decide too.

use crate::hip::{
    self, Contents, Cpu, Header, Lists, Memory, CHECKSUM, CPU_BYTES, CPU_OFFSET, CPU_SIZE, FIELDS,
    HEADER_BYTES, LENGTH, LENGTH_LIMIT, MEMORY_BYTES, MEMORY_OFFSET, MEMORY_SIZE, SIGNATURE, TYPE,
};
use crate::random::Random;

/// Most CPU descriptors of a page.
pub const CPU_LIMIT: usize = (LENGTH_LIMIT - HEADER_BYTES) / CPU_BYTES;

/// Most memory descriptors of a page.
pub const MEMORY_LIMIT: usize = (LENGTH_LIMIT - HEADER_BYTES) / MEMORY_BYTES;

/// CPU descriptors that take the bytes of a memory descriptor.
const CPUS_FOR_MEMORY: usize = MEMORY_BYTES / CPU_BYTES;

/// Types that are allowed.
pub const ALLOWED_TYPES: [i32; 6] = [-2, -1, 1, 2, 3, 4];

/// Types around the allowed ones, the extremes, and types of which some bytes alone, or all in
/// the other order, are those of an allowed type.
pub const NOTABLE_TYPES: [i32; 18] = [
    -3,
    -2,
    -1,
    0,
    1,
    2,
    3,
    4,
    5,
    i32::MIN,
    i32::MAX,
    0xff,
    0xfffe,
    0x101,
    0x1_0001,
    1i32.swap_bytes(),
    (-2i32).swap_bytes(),
    i32::MIN + 1,
];

/// A number of 32 bits that is any, small or at an end.
fn field(random: &mut Random) -> u32 {
    match random.below(8) {
        0 => 0,
        1 => u32::MAX,
        _ => random.word() >> random.below(32),
    }
}

/// A number of 64 bits that is any, small or at an end.
fn long_field(random: &mut Random) -> u64 {
    let number = u64::from(random.word()) << 32 | u64::from(random.word());
    match random.below(8) {
        0 => 0,
        1 => u64::MAX,
        _ => number >> random.below(64),
    }
}

fn header(random: &mut Random) -> Header {
    Header::from_fields([(); FIELDS].map(|_| field(random)))
}

fn cpu(random: &mut Random) -> Cpu {
    Cpu::from_bytes(random.word().to_le_bytes())
}

fn range(random: &mut Random) -> Memory {
    Memory {
        address: long_field(random),
        size: long_field(random),
        kind: random.pick(&ALLOWED_TYPES).unwrap_or_default(),
        auxiliary: field(random),
    }
}

/// A type that is allowed or not.
fn any_type(random: &mut Random) -> i32 {
    match random.below(6) {
        0 => random.word() as i32,
        _ => random.pick(&NOTABLE_TYPES).unwrap_or_default(),
    }
}

/// Numbers of CPU descriptors and of memory descriptors that a page can have.
fn counts(random: &mut Random) -> (usize, usize) {
    match random.below(1000) {
        0 | 1 => (CPU_LIMIT, 0),
        2 | 3 => (random.below(2) as usize, MEMORY_LIMIT),
        4..=7 => {
            let memory = random.below(MEMORY_LIMIT as u32 + 1) as usize;
            (CPU_LIMIT - CPUS_FOR_MEMORY * memory, memory)
        }
        8..=27 => (random.below(2000) as usize, random.below(300) as usize),
        28..=127 => (random.below(40) as usize, random.below(40) as usize),
        _ => (few(random), few(random)),
    }
}

/// A number of descriptors that is often 0.
fn few(random: &mut Random) -> usize {
    random.below(6).saturating_sub(random.below(2)) as usize
}

/// Numbers of descriptors that no page can have; often one CPU descriptor is too many.
fn large_counts(random: &mut Random) -> (usize, usize) {
    let memory = match random.below(4) {
        0 => 0,
        1 => MEMORY_LIMIT,
        _ => random.below(MEMORY_LIMIT as u32 + 1) as usize,
    };
    let cpus = CPU_LIMIT - CPUS_FOR_MEMORY * memory + 1;
    match random.below(6) {
        0 => (0, MEMORY_LIMIT + 1),
        1 => (cpus + random.below(9000) as usize, memory),
        2 => (cpus, memory + random.below(40) as usize),
        // So many more that the length would be that of a page again modulo 65536.
        3 => (cpus + HEADER_BYTES / CPU_BYTES + few(random), memory),
        _ => (cpus, memory),
    }
}

fn contents_of(random: &mut Random, (cpus, memory): (usize, usize)) -> Contents {
    Contents {
        header: header(random),
        cpus: (0..cpus).map(|_| cpu(random)).collect(),
        memory: (0..memory).map(|_| range(random)).collect(),
    }
}

/// Contents that can be written.
pub fn good_contents(random: &mut Random) -> Contents {
    let counts = counts(random);
    contents_of(random, counts)
}

/// Contents of any size: some are too large for a page, and in some a type is not allowed.
pub fn contents(random: &mut Random) -> Contents {
    let counts = if random.percent(2) {
        large_counts(random)
    } else {
        counts(random)
    };
    let mut contents = contents_of(random, counts);
    if random.percent(30) {
        let index = position(random, contents.memory.len().max(1));
        if let Some(range) = contents.memory.get_mut(index) {
            range.kind = any_type(random);
        }
    }
    contents
}

/// The descriptors of the contents as lists, in which more may follow that is not read.
pub fn lists(random: &mut Random, contents: &Contents) -> Lists {
    let mut lists = contents.lists();
    let bytes = random.below(CPU_BYTES as u32);
    lists.cpus.extend((0..bytes).map(|_| random.word() as u8));
    // One list at least stays the shortest.
    let shortest = random.below(4);
    let mut surplus = |list: u32| {
        let more = random.below(4);
        (0..more * u32::from(list != shortest))
            .map(|_| random.word())
            .collect::<Vec<u32>>()
    };
    lists
        .addresses
        .extend(surplus(0).iter().map(|&word| u64::from(word)));
    lists
        .sizes
        .extend(surplus(1).iter().map(|&word| u64::from(word)));
    lists
        .types
        .extend(surplus(2).iter().map(|&word| word as i32));
    lists.auxiliaries.extend(surplus(3));
    lists
}

/// A buffer of any bytes for a page of this length: exact, too short or longer.
pub fn buffer(random: &mut Random, length: usize) -> Vec<u8> {
    let length = match random.below(8) {
        0 => 0,
        1 => length.saturating_sub(1),
        2 => random.below(length as u32) as usize,
        3 => length + 1,
        4 => length + random.below(100) as usize,
        _ => length,
    };
    bytes(random, length)
}

/// An accepted page.
pub fn page(random: &mut Random) -> Vec<u8> {
    written(&good_contents(random))
}

/// The page that is written from contents with allowed types that are not too large.
pub fn written(contents: &Contents) -> Vec<u8> {
    let mut page = vec![0; contents.length()];
    hip::write(contents, &mut page).expect("contents that can be written");
    page
}

/// A page with a flaw, sometimes with two, with its checksum mended or not.
pub fn damaged_page(random: &mut Random) -> Vec<u8> {
    let mut page = page(random);
    let flaws = if random.percent(15) { 2 } else { 1 };
    for _ in 0..flaws {
        // Types are tested last, so pages come to that test only if it is aimed at.
        let flaw = match random.percent(20) {
            true => Some(Flaw::Type),
            false => random.pick(&Flaw::ALL),
        };
        if let Some(flaw) = flaw {
            flaw.apply(random, &mut page);
        }
    }
    if random.percent(50) {
        mend(&mut page);
    }
    page
}

/// What is wrong with a page.
#[derive(Clone, Copy, PartialEq, Eq, Debug)]
pub enum Flaw {
    /// One bit is another.
    Bit,
    /// Some bytes are others.
    Bytes,
    /// 1 to 24 bytes are cut or added, which the length and the memory offset may follow.
    Resized,
    /// Many bytes follow the page, sometimes so many that its length is right modulo 65536.
    Extended,
    /// The sizes of descriptors are exchanged, or one is wrong.
    Sizes,
    /// The CPU offset is wrong.
    CpuOffset,
    /// The memory offset is below the CPU descriptors, above the length or moved.
    MemoryOffset,
    /// A memory descriptor's type is one to look at.
    Type,
    /// The signature is wrong.
    Signature,
    /// The length, or another number of 16 bits, is big-endian.
    BigEndian,
    /// The bytes are any, sometimes after a good signature and length.
    Noise,
    /// There are fewer bytes than a header has.
    Short,
}

impl Flaw {
    pub const ALL: [Flaw; 12] = [
        Flaw::Bit,
        Flaw::Bytes,
        Flaw::Resized,
        Flaw::Extended,
        Flaw::Sizes,
        Flaw::CpuOffset,
        Flaw::MemoryOffset,
        Flaw::Type,
        Flaw::Signature,
        Flaw::BigEndian,
        Flaw::Noise,
        Flaw::Short,
    ];

    /// Gives bytes this flaw; those that are shorter than a header stay as they are.
    pub fn apply(self, random: &mut Random, page: &mut Vec<u8>) {
        if page.len() < HEADER_BYTES {
            return;
        }
        match self {
            Flaw::Bit => {
                let at = position(random, page.len());
                page[at] ^= 1 << random.below(8);
            }
            Flaw::Bytes => {
                for _ in 0..1 + random.below(4) {
                    let at = position(random, page.len());
                    page[at] = random.word() as u8;
                }
            }
            Flaw::Resized => resize(random, page),
            Flaw::Extended => {
                let more = match random.below(12) {
                    0 => 1 << 16,
                    _ => 25 + random.below(300),
                };
                let fill = bytes(random, more as usize);
                page.extend(fill);
            }
            Flaw::Sizes => {
                let near = |random: &mut Random, size: usize| match random.below(4) {
                    0 => 0,
                    1 => size + 1,
                    2 => size - 1,
                    _ => size << random.below(9),
                };
                match random.below(3) {
                    0 => {
                        put(page, CPU_SIZE, MEMORY_BYTES);
                        put(page, MEMORY_SIZE, CPU_BYTES);
                    }
                    1 => put(page, CPU_SIZE, near(random, CPU_BYTES)),
                    _ => put(page, MEMORY_SIZE, near(random, MEMORY_BYTES)),
                }
            }
            Flaw::CpuOffset => {
                let offset = match random.below(4) {
                    0 => {
                        let memory_offset = half(page, MEMORY_OFFSET);
                        put(page, MEMORY_OFFSET, HEADER_BYTES);
                        memory_offset
                    }
                    1 => random.below(1 << 16) as usize,
                    _ => moved(random, HEADER_BYTES),
                };
                put(page, CPU_OFFSET, offset);
            }
            Flaw::MemoryOffset => {
                let offset = half(page, MEMORY_OFFSET);
                let steps = CPU_BYTES * (1 + random.below(14) as usize);
                let offset = match random.below(8) {
                    0 => HEADER_BYTES - steps,
                    1 => page.len() + steps,
                    2 => HEADER_BYTES,
                    3 => page.len(),
                    4 => random.below(1 << 16) as usize,
                    _ => moved(random, offset),
                };
                put(page, MEMORY_OFFSET, offset);
            }
            Flaw::Type => {
                if half(page, MEMORY_OFFSET) == page.len() {
                    page.extend(range(random).bytes());
                    let length = page.len();
                    put(page, LENGTH, length);
                }
                let start = half(page, MEMORY_OFFSET);
                let count = page.len().saturating_sub(start) / MEMORY_BYTES;
                if count > 0 {
                    let at = start + MEMORY_BYTES * position(random, count) + TYPE;
                    page[at..at + 4].copy_from_slice(&any_type(random).to_le_bytes());
                }
            }
            Flaw::Signature => match random.below(4) {
                0 => page[..SIGNATURE.len()].reverse(),
                1 => page[..SIGNATURE.len()].make_ascii_lowercase(),
                2 => page[..SIGNATURE.len()].copy_from_slice(&random.word().to_le_bytes()),
                _ => page[random.below(SIGNATURE.len() as u32) as usize] ^= 1 << random.below(8),
            },
            Flaw::BigEndian => {
                let at = match random.below(2) {
                    0 => LENGTH,
                    _ => CHECKSUM + 2 * random.below(6) as usize,
                };
                page.swap(at, at + 1);
            }
            Flaw::Noise => {
                let length = random.below(200) as usize;
                let mut noise = bytes(random, length);
                if length >= HEADER_BYTES && random.percent(70) {
                    noise[..SIGNATURE.len()].copy_from_slice(&SIGNATURE);
                    if random.percent(70) {
                        put(&mut noise, LENGTH, length);
                    }
                }
                *page = noise;
            }
            Flaw::Short => {
                let length = match random.below(4) {
                    0 => 0,
                    1 => HEADER_BYTES - 1,
                    _ => random.below(HEADER_BYTES as u32) as usize,
                };
                page.truncate(length);
            }
        }
    }
}

/// Cuts or adds 1 to 24 bytes, at the end or among the CPU descriptors.
fn resize(random: &mut Random, page: &mut Vec<u8>) {
    let count = match random.below(3) {
        0 => CPU_BYTES,
        1 => MEMORY_BYTES,
        _ => 1 + random.below(MEMORY_BYTES as u32) as usize,
    };
    let memory_offset = half(page, MEMORY_OFFSET);
    let at_end = random.percent(60);
    if random.percent(50) {
        let from = if at_end { page.len() } else { HEADER_BYTES };
        let fill = match page.len().checked_sub(count) {
            // The last bytes again, which may be a good memory descriptor.
            Some(start) if random.percent(50) => page[start..].to_vec(),
            _ => bytes(random, count),
        };
        page.splice(from..from, fill);
        if !at_end && random.percent(70) {
            put(page, MEMORY_OFFSET, memory_offset + count);
        }
    } else if at_end {
        page.truncate(page.len().saturating_sub(count));
    } else {
        let end = page.len().min(HEADER_BYTES + count);
        page.drain(HEADER_BYTES..end);
        if random.percent(70) {
            put(page, MEMORY_OFFSET, memory_offset.saturating_sub(count));
        }
    }
    let length = page.len();
    if length >= HEADER_BYTES && random.percent(60) {
        put(page, LENGTH, length);
    }
}

/// An offset moved a little, or by a descriptor, up or down.
fn moved(random: &mut Random, offset: usize) -> usize {
    let by = match random.below(3) {
        0 => 1 + random.below(3) as usize,
        1 => CPU_BYTES,
        _ => MEMORY_BYTES,
    };
    match random.below(2) {
        0 => offset + by,
        _ => offset.saturating_sub(by),
    }
}

/// A position below a count above 0; the first 56 and the last are more frequent.
fn position(random: &mut Random, count: usize) -> usize {
    match random.below(4) {
        0 => random.below(count.min(HEADER_BYTES) as u32) as usize,
        1 => (count - 1) * random.below(2) as usize,
        _ => random.below(count as u32) as usize,
    }
}

fn bytes(random: &mut Random, count: usize) -> Vec<u8> {
    (0..count).map(|_| random.word() as u8).collect()
}

/// A number of 16 bits in a page.
fn half(page: &[u8], at: usize) -> usize {
    usize::from(u16::from_le_bytes([page[at], page[at + 1]]))
}

/// Sets a number of 16 bits in a page; what is larger wraps.
pub fn put(page: &mut [u8], at: usize, number: usize) {
    page[at..at + 2].copy_from_slice(&(number as u16).to_le_bytes());
}

/// Gives bytes the checksum that fits, if they have room for one.
pub fn mend(page: &mut [u8]) {
    if page.len() >= LENGTH {
        put(page, CHECKSUM, 0);
        let checksum = hip::sum(page).wrapping_neg();
        put(page, CHECKSUM, usize::from(checksum));
    }
}
