//! The information page, which tells the root about the machine: its CPUs, its
//! memory and the sizes of the hypervisor.
//!
//! The hypervisor writes it before the root runs, into the page that boot lends the
//! root to read ([`crate::Selector::INFORMATION_PAGE`]), and the root reads it. Bytes
//! of any length and content may be read, and a buffer of any length may be written.
//!
//! ```
//! use rudozhev::hip::{self, Cpu, Header, Memory, MemoryArrays, MemoryType, Page};
//!
//! # fn main() -> Result<(), Box<dyn std::error::Error>> {
//! let header = Header { selectors: 256, tsc_frequency: 2_662_272, ..Header::default() };
//! let cpus = [Cpu { flags: 1, ..Cpu::default() }, Cpu { flags: 1, core: 1, ..Cpu::default() }];
//! let kind = MemoryType::Available;
//! let low = Memory { address: 0, size: 654_336, kind, auxiliary: 0 };
//! let high = Memory { address: 1 << 20, size: 3_219_128_320, kind, auxiliary: 0 };
//! let memories = MemoryArrays::new([low, high]);
//! let mut memory = [0; 4_096];
//! let length = hip::write(&header, &cpus, memories.lists(), &mut memory)?;
//! assert_eq!(length, 56 + 2 * 4 + 2 * 24);
//!
//! let page = Page::read_start(&memory)?;
//! assert_eq!(page.header(), header);
//! assert!(page.cpus().eq(cpus));
//! assert_eq!(page.memory(1), Some(high));
//! assert_eq!(page.memory(2), None);
//!
//! // A byte that is another makes the sum of the page wrong.
//! memory[16] += 1;
//! assert_eq!(Page::read_start(&memory), Err(hip::PageRefusal::Checksum));
//! # Ok(())
//! # }
//! ```

mod refusal;

use core::fmt;
use core::slice;

use crate::words;

pub use refusal::{PageRefusal, WriteRefusal};

/// Bytes of the header, after which the CPU descriptors begin.
pub const HEADER_BYTES: usize = 56;

/// Bytes of a CPU descriptor.
pub const CPU_BYTES: usize = 4;

/// Bytes of a memory descriptor.
pub const MEMORY_BYTES: usize = 24;

/// Most bytes of a page.
pub const GREATEST_LENGTH: usize = 65_535;

/// Fields of the header that may have any value.
pub const FIELDS: usize = 10;

/// The fields of the header that may have any value.
#[derive(Clone, Copy, PartialEq, Eq, Debug, Default, Hash)]
pub struct Header {
    /// A bit for each feature that the hypervisor supports.
    pub features: u32,
    /// Number of the interface's version.
    pub api_version: u32,
    /// SEL: selectors of an object space.
    pub selectors: u32,
    /// EXC: selectors for exception handling.
    pub exceptions: u32,
    /// VMI: selectors for virtual-machine intercepts.
    pub intercepts: u32,
    /// GSI: global system interrupts.
    pub interrupts: u32,
    /// Bit n set: pages of 2^n bytes are supported.
    pub page_sizes: u32,
    /// Bit n set: UTCBs of 2^n bytes are supported.
    pub utcb_sizes: u32,
    /// Of the time stamp counter, in kHz.
    pub tsc_frequency: u32,
    /// Of the interconnect, in kHz.
    pub bus_frequency: u32,
}

impl Header {
    /// The header of these fields, which are in its order.
    pub const fn from_fields(fields: [u32; FIELDS]) -> Header {
        Header {
            features: fields[0],
            api_version: fields[1],
            selectors: fields[2],
            exceptions: fields[3],
            intercepts: fields[4],
            interrupts: fields[5],
            page_sizes: fields[6],
            utcb_sizes: fields[7],
            tsc_frequency: fields[8],
            bus_frequency: fields[9],
        }
    }

    /// The fields, in the header's order.
    pub const fn fields(&self) -> [u32; FIELDS] {
        [
            self.features,
            self.api_version,
            self.selectors,
            self.exceptions,
            self.intercepts,
            self.interrupts,
            self.page_sizes,
            self.utcb_sizes,
            self.tsc_frequency,
            self.bus_frequency,
        ]
    }
}

/// A CPU; its number is the position of its descriptor, from 0.
#[derive(Clone, Copy, PartialEq, Eq, Debug, Default, Hash)]
#[repr(C)]
pub struct Cpu {
    /// The status of the CPU; what its bits mean is the hypervisor's to say.
    pub flags: u8,
    /// The thread in its core.
    pub thread: u8,
    /// The core in its package.
    pub core: u8,
    /// The package.
    pub package: u8,
}

const _: () = assert!(size_of::<Cpu>() == CPU_BYTES, "a CPU is its descriptor's bytes");

impl Cpu {
    /// The CPU of a descriptor's bytes.
    pub const fn from_bytes([flags, thread, core, package]: [u8; CPU_BYTES]) -> Cpu {
        Cpu { flags, thread, core, package }
    }

    /// The bytes of the descriptor.
    pub const fn bytes(self) -> [u8; CPU_BYTES] {
        [self.flags, self.thread, self.core, self.package]
    }

    /// The descriptors of some CPUs, one after the other.
    fn all_bytes(cpus: &[Cpu]) -> &[u8] {
        // SAFETY: a CPU is four bytes in the order of its fields, with none between them, so
        // that the slice is as many bytes, lent for as long.
        unsafe { slice::from_raw_parts(cpus.as_ptr().cast(), size_of_val(cpus)) }
    }
}

/// What a range of memory is.
#[derive(Clone, Copy, PartialEq, Eq, Debug, Hash)]
#[repr(i32)]
pub enum MemoryType {
    /// A multiboot module.
    MultibootModule = -2,
    /// The microhypervisor.
    Microhypervisor = -1,
    /// Available memory.
    Available = 1,
    /// Reserved memory.
    Reserved = 2,
    /// ACPI reclaim memory.
    AcpiReclaim = 3,
    /// ACPI NVS memory.
    AcpiNvs = 4,
}

impl MemoryType {
    /// The type of this number, if there is one.
    pub const fn from_number(number: i32) -> Option<MemoryType> {
        Some(match number {
            -2 => MemoryType::MultibootModule,
            -1 => MemoryType::Microhypervisor,
            1 => MemoryType::Available,
            2 => MemoryType::Reserved,
            3 => MemoryType::AcpiReclaim,
            4 => MemoryType::AcpiNvs,
            _ => return None,
        })
    }

    /// The interface's number for this type.
    pub const fn number(self) -> i32 {
        self as i32
    }

    /// The numbers of some types.
    fn all_numbers(types: &[MemoryType]) -> &[i32] {
        // SAFETY: a type is a number of 32 bits, of which every value may be read, so that
        // the slice is as many numbers, lent for as long.
        unsafe { slice::from_raw_parts(types.as_ptr().cast(), types.len()) }
    }
}

impl fmt::Display for MemoryType {
    fn fmt(&self, out: &mut fmt::Formatter) -> fmt::Result {
        out.pad(match self {
            MemoryType::MultibootModule => "multiboot module",
            MemoryType::Microhypervisor => "microhypervisor",
            MemoryType::Available => "available memory",
            MemoryType::Reserved => "reserved memory",
            MemoryType::AcpiReclaim => "ACPI reclaim memory",
            MemoryType::AcpiNvs => "ACPI NVS memory",
        })
    }
}

/// A range of physical memory.
#[derive(Clone, Copy, PartialEq, Eq, Debug, Hash)]
pub struct Memory {
    /// The address of its first byte.
    pub address: u64,
    /// Its number of bytes.
    pub size: u64,
    /// What it is.
    pub kind: MemoryType,
    /// For a multiboot module the address of its command line; otherwise reserved.
    pub auxiliary: u32,
}

/// Memory descriptors as four lists of one length: descriptor i has the i-th number of each.
#[derive(Clone, Copy, PartialEq, Eq, Debug, Default)]
pub struct MemoryLists<'a> {
    addresses: &'a [u64],
    sizes: &'a [u64],
    kinds: &'a [MemoryType],
    auxiliaries: &'a [u32],
}

impl<'a> MemoryLists<'a> {
    /// Lists without a descriptor.
    pub const EMPTY: MemoryLists<'static> =
        MemoryLists { addresses: &[], sizes: &[], kinds: &[], auxiliaries: &[] };

    /// These lists, if they are of one length.
    pub const fn new(
        addresses: &'a [u64],
        sizes: &'a [u64],
        kinds: &'a [MemoryType],
        auxiliaries: &'a [u32],
    ) -> Option<MemoryLists<'a>> {
        let count = addresses.len();
        if sizes.len() == count && kinds.len() == count && auxiliaries.len() == count {
            Some(MemoryLists { addresses, sizes, kinds, auxiliaries })
        } else {
            None
        }
    }

    /// How many descriptors there are.
    pub const fn count(&self) -> usize {
        self.addresses.len()
    }

    /// The descriptor of an index, if there are so many.
    pub fn memory(&self, index: usize) -> Option<Memory> {
        Some(Memory {
            address: *self.addresses.get(index)?,
            size: *self.sizes.get(index)?,
            kind: *self.kinds.get(index)?,
            auxiliary: *self.auxiliaries.get(index)?,
        })
    }
}

/// Memory descriptors in four arrays, for a hypervisor that has no lists of its own.
#[derive(Clone, PartialEq, Eq, Debug)]
pub struct MemoryArrays<const COUNT: usize> {
    addresses: [u64; COUNT],
    sizes: [u64; COUNT],
    kinds: [MemoryType; COUNT],
    auxiliaries: [u32; COUNT],
}

impl<const COUNT: usize> MemoryArrays<COUNT> {
    /// The arrays of these descriptors.
    pub fn new(memories: [Memory; COUNT]) -> MemoryArrays<COUNT> {
        MemoryArrays {
            addresses: memories.map(|memory| memory.address),
            sizes: memories.map(|memory| memory.size),
            kinds: memories.map(|memory| memory.kind),
            auxiliaries: memories.map(|memory| memory.auxiliary),
        }
    }

    /// The descriptors as lists.
    pub const fn lists(&self) -> MemoryLists<'_> {
        MemoryLists {
            addresses: &self.addresses,
            sizes: &self.sizes,
            kinds: &self.kinds,
            auxiliaries: &self.auxiliaries,
        }
    }
}

/// How many descriptors a page has.
#[derive(Clone, Copy, PartialEq, Eq, Debug, Default)]
pub struct Counts {
    /// CPU descriptors.
    pub cpus: u32,
    /// Memory descriptors.
    pub memories: u32,
}

/// A page that was accepted, in lent bytes.
///
/// Each descriptor is asked of the proved function, which tests the whole page again. So
/// going over all descriptors takes a test of the page for each of them.
#[derive(Clone, Copy, PartialEq, Eq, Debug)]
pub struct Page<'a> {
    bytes: &'a [u8],
    header: Header,
    counts: Counts,
}

impl<'a> Page<'a> {
    /// Reads a page from its bytes, which are no more than the page.
    pub fn read(bytes: &'a [u8]) -> Result<Page<'a>, PageRefusal> {
        let mut fields = [0; FIELDS];
        let counts = words::hip_read(bytes, &mut fields)?;
        Ok(Page { bytes, header: Header::from_fields(fields), counts })
    }

    /// Reads the page that some memory begins with: as many bytes as bytes 6 and 7 say, or
    /// all there are if those are fewer.
    pub fn read_start(memory: &'a [u8]) -> Result<Page<'a>, PageRefusal> {
        let length = match memory {
            [_, _, _, _, _, _, low, high, ..] => u16::from_le_bytes([*low, *high]),
            _ => 0,
        };
        Page::read(memory.get(..length.into()).unwrap_or(memory))
    }

    /// The bytes of the page.
    pub const fn bytes(&self) -> &'a [u8] {
        self.bytes
    }

    /// The ten fields of the header.
    pub const fn header(&self) -> Header {
        self.header
    }

    /// How many descriptors there are.
    pub const fn counts(&self) -> Counts {
        self.counts
    }

    /// The CPU of a number; none where there are not so many.
    pub fn cpu(&self, number: u32) -> Option<Cpu> {
        words::hip_cpu(self.bytes, number).map(Cpu::from_bytes)
    }

    /// The memory descriptor of an index; none where there are not so many.
    pub fn memory(&self, index: u32) -> Option<Memory> {
        let mut numbers = [0; 3];
        let number = words::hip_memory(self.bytes, index, &mut numbers)?;
        let [address, size, auxiliary] = numbers;
        let kind = MemoryType::from_number(number)?;
        Some(Memory { address, size, kind, auxiliary: auxiliary.try_into().ok()? })
    }

    /// The CPUs, in the order of their numbers.
    pub fn cpus(&self) -> impl Iterator<Item = Cpu> + 'a {
        let page = *self;
        (0..page.counts.cpus).filter_map(move |number| page.cpu(number))
    }

    /// The memory descriptors, in their order.
    pub fn memories(&self) -> impl Iterator<Item = Memory> + 'a {
        let page = *self;
        (0..page.counts.memories).filter_map(move |index| page.memory(index))
    }
}

/// Writes a page at the start of a buffer and answers its length; the bytes after it stay.
pub fn write(
    header: &Header,
    cpus: &[Cpu],
    memories: MemoryLists,
    buffer: &mut [u8],
) -> Result<usize, WriteRefusal> {
    let MemoryLists { addresses, sizes, kinds, auxiliaries } = memories;
    let (cpus, kinds) = (Cpu::all_bytes(cpus), MemoryType::all_numbers(kinds));
    words::hip_write(&header.fields(), cpus, addresses, sizes, kinds, auxiliaries, buffer)
}

#[cfg(test)]
mod tests {
    use super::*;

    #[test]
    fn every_type_has_its_number() {
        for number in -100..100 {
            let found = MemoryType::from_number(number);
            assert_eq!(found.map(MemoryType::number).unwrap_or(number), number);
            assert_eq!(found.is_some(), [-2, -1, 1, 2, 3, 4].contains(&number));
        }
        for number in [i32::MIN, i32::MAX, 0xff, 0x101, 1 << 24] {
            assert_eq!(MemoryType::from_number(number), None);
        }
    }

    #[test]
    fn lists_of_the_archive_are_those_of_the_types() {
        let cpus =
            [Cpu { flags: 1, thread: 2, core: 3, package: 4 }, Cpu::from_bytes([5, 6, 7, 8])];
        assert_eq!(Cpu::all_bytes(&cpus), [1, 2, 3, 4, 5, 6, 7, 8]);
        assert_eq!(Cpu::all_bytes(&cpus), cpus.map(Cpu::bytes).as_flattened());
        assert_eq!(Cpu::all_bytes(&[]), []);
        let all =
            [-2, -1, 1, 2, 3, 4].map(|number| MemoryType::from_number(number).expect("a type"));
        assert_eq!(MemoryType::all_numbers(&all), [-2, -1, 1, 2, 3, 4]);
        assert_eq!(MemoryType::all_numbers(&[]), []);
        let fields = core::array::from_fn(|field| field as u32 + 1);
        assert_eq!(Header::from_fields(fields).fields(), fields);
    }

    #[test]
    fn lists_of_unequal_length_are_not_made() {
        let (numbers, auxiliaries) = ([1, 2, 3], [4, 5, 6]);
        let kinds = [MemoryType::Available, MemoryType::Reserved, MemoryType::AcpiNvs];
        for lengths in 0..4_usize.pow(4) {
            let [a, s, k, x] = [1, 4, 16, 64].map(|place| lengths / place % 4);
            let made =
                MemoryLists::new(&numbers[..a], &numbers[..s], &kinds[..k], &auxiliaries[..x]);
            assert_eq!(made.is_some(), a == s && s == k && k == x);
            assert_eq!(made.map_or(a, |lists| lists.count()), a);
        }
        let lists =
            MemoryLists::new(&numbers, &numbers, &kinds, &auxiliaries).expect("equal lists");
        let second = Memory { address: 2, size: 2, kind: MemoryType::Reserved, auxiliary: 5 };
        assert_eq!(lists.memory(1), Some(second));
        assert_eq!(lists.memory(3), None);
        let memories = [0, 1, 2].map(|index| lists.memory(index).expect("a descriptor"));
        assert_eq!(MemoryArrays::new(memories).lists(), lists);
        assert_eq!(MemoryArrays::new([]).lists(), MemoryLists::EMPTY);
    }
}
