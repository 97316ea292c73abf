//! The information page, which tells the root about the machine: its reader,
//! its writer and its text. Numbers of several bytes are little-endian.

use std::fmt::{self, Display, Formatter, Write};

/// The first four bytes of a page.
pub const SIGNATURE: [u8; 4] = *b"NOVA";

/// Bytes of the header, and so where the CPU descriptors begin.
pub const HEADER_BYTES: usize = 56;

/// Bytes of a CPU descriptor.
pub const CPU_BYTES: usize = 4;

/// Bytes of a memory descriptor.
pub const MEMORY_BYTES: usize = 24;

/// Most bytes that the length field can tell of.
pub const LENGTH_LIMIT: usize = u16::MAX as usize;

/// Fields of the header that may have any value.
pub const FIELDS: usize = 10;

/// Where the parts of the header begin.
pub const CHECKSUM: usize = 4;
pub const LENGTH: usize = 6;
pub const CPU_OFFSET: usize = 8;
pub const CPU_SIZE: usize = 10;
pub const MEMORY_OFFSET: usize = 12;
pub const MEMORY_SIZE: usize = 14;
pub const FIRST_FIELD: usize = 16;

/// Where the type begins in a memory descriptor.
pub const TYPE: usize = 16;

/// The fields of the header that may have any value.
#[derive(Clone, Copy, PartialEq, Eq, Debug, Default)]
pub struct Header {
    pub features: u32,
    pub api_version: u32,
    /// SEL: selectors of an object space.
    pub selectors: u32,
    /// EXC: selectors for exception handling.
    pub exceptions: u32,
    /// VMI: selectors for virtual-machine intercepts.
    pub intercepts: u32,
    /// GSI: global system interrupts.
    pub interrupts: u32,
    pub page_sizes: u32,
    pub utcb_sizes: u32,
    /// In kHz.
    pub tsc_frequency: u32,
    /// In kHz.
    pub bus_frequency: u32,
}

impl Header {
    /// A header from its fields in their order.
    pub const fn from_fields(fields: [u32; FIELDS]) -> Header {
        Header {
            features: fields[0],
            api_version: fields[1],
            selectors: fields[2],
            exceptions: fields[3],
            intercepts: fields[4],
            interrupts: fields[5],
            page_sizes: fields[6],
            utcb_sizes: fields[7],
            tsc_frequency: fields[8],
            bus_frequency: fields[9],
        }
    }

    /// The fields in their order.
    pub const fn fields(&self) -> [u32; FIELDS] {
        [
            self.features,
            self.api_version,
            self.selectors,
            self.exceptions,
            self.intercepts,
            self.interrupts,
            self.page_sizes,
            self.utcb_sizes,
            self.tsc_frequency,
            self.bus_frequency,
        ]
    }
}

/// A CPU; its position among the CPU descriptors is its number.
#[derive(Clone, Copy, PartialEq, Eq, Debug, Default)]
pub struct Cpu {
    pub flags: u8,
    pub thread: u8,
    pub core: u8,
    pub package: u8,
}

impl Cpu {
    /// A CPU from its descriptor.
    pub const fn from_bytes(bytes: [u8; CPU_BYTES]) -> Cpu {
        let [flags, thread, core, package] = bytes;
        Cpu {
            flags,
            thread,
            core,
            package,
        }
    }

    /// The descriptor.
    pub const fn bytes(&self) -> [u8; CPU_BYTES] {
        [self.flags, self.thread, self.core, self.package]
    }
}

/// A range of physical memory.
#[derive(Clone, Copy, PartialEq, Eq, Debug, Default)]
pub struct Memory {
    pub address: u64,
    pub size: u64,
    /// The interface's type; not every number is allowed.
    pub kind: i32,
    pub auxiliary: u32,
}

impl Memory {
    /// A range from its descriptor.
    pub fn from_bytes(bytes: &[u8; MEMORY_BYTES]) -> Memory {
        Memory {
            address: u64::from_le_bytes(bytes_at(bytes, 0)),
            size: u64::from_le_bytes(bytes_at(bytes, 8)),
            kind: i32::from_le_bytes(bytes_at(bytes, TYPE)),
            auxiliary: u32::from_le_bytes(bytes_at(bytes, 20)),
        }
    }

    /// The descriptor.
    pub fn bytes(&self) -> [u8; MEMORY_BYTES] {
        let mut bytes = [0; MEMORY_BYTES];
        bytes[..8].copy_from_slice(&self.address.to_le_bytes());
        bytes[8..TYPE].copy_from_slice(&self.size.to_le_bytes());
        bytes[TYPE..20].copy_from_slice(&self.kind.to_le_bytes());
        bytes[20..].copy_from_slice(&self.auxiliary.to_le_bytes());
        bytes
    }
}

/// The name of a type, if it is allowed.
pub const fn type_name(kind: i32) -> Option<&'static str> {
    match kind {
        -2 => Some("multiboot module"),
        -1 => Some("microhypervisor"),
        1 => Some("available memory"),
        2 => Some("reserved memory"),
        3 => Some("ACPI reclaim memory"),
        4 => Some("ACPI NVS memory"),
        _ => None,
    }
}

/// What a page is written from.
#[derive(Clone, PartialEq, Eq, Debug, Default)]
pub struct Contents {
    pub header: Header,
    pub cpus: Vec<Cpu>,
    pub memory: Vec<Memory>,
}

impl Contents {
    /// Where the memory descriptors begin.
    pub fn memory_offset(&self) -> usize {
        HEADER_BYTES + CPU_BYTES * self.cpus.len()
    }

    /// Bytes of the page.
    pub fn length(&self) -> usize {
        self.memory_offset() + MEMORY_BYTES * self.memory.len()
    }

    /// Whether every memory descriptor has an allowed type.
    fn has_allowed_types(&self) -> bool {
        self.memory
            .iter()
            .all(|range| type_name(range.kind).is_some())
    }

    /// The descriptors as lists, with nothing that is not read.
    pub fn lists(&self) -> Lists {
        Lists {
            cpus: self.cpus.iter().flat_map(Cpu::bytes).collect(),
            addresses: self.memory.iter().map(|range| range.address).collect(),
            sizes: self.memory.iter().map(|range| range.size).collect(),
            types: self.memory.iter().map(|range| range.kind).collect(),
            auxiliaries: self.memory.iter().map(|range| range.auxiliary).collect(),
        }
    }
}

/// The descriptors in the form in which the interface lends them to the writer.
#[derive(Clone, PartialEq, Eq, Debug, Default)]
pub struct Lists {
    /// Four bytes for each CPU; bytes at the end that make no whole descriptor are not read.
    pub cpus: Vec<u8>,
    /// The shortest of these four says how many memory descriptors there are.
    pub addresses: Vec<u64>,
    pub sizes: Vec<u64>,
    pub types: Vec<i32>,
    pub auxiliaries: Vec<u32>,
}

impl Lists {
    /// The contents of a page with this header.
    pub fn contents(&self, header: Header) -> Contents {
        let (cpus, _) = self.cpus.as_chunks::<CPU_BYTES>();
        let ranges = self.addresses.iter().zip(&self.sizes);
        let kinds = self.types.iter().zip(&self.auxiliaries);
        Contents {
            header,
            cpus: cpus.iter().copied().map(Cpu::from_bytes).collect(),
            memory: ranges
                .zip(kinds)
                .map(|((&address, &size), (&kind, &auxiliary))| Memory {
                    address,
                    size,
                    kind,
                    auxiliary,
                })
                .collect(),
        }
    }
}

/// An accepted page.
#[derive(Clone, PartialEq, Eq, Debug)]
pub struct Page {
    pub checksum: u16,
    pub contents: Contents,
}

/// Why the reader refuses bytes; the numbers are the interface's.
#[derive(Clone, Copy, PartialEq, Eq, PartialOrd, Ord, Debug, Hash)]
#[repr(u32)]
pub enum Refusal {
    /// There are fewer bytes than a header has.
    Short = 1,
    /// The first four bytes are others.
    Signature = 2,
    /// The length field is not the number of bytes.
    Length = 3,
    /// The offsets and sizes do not divide the bytes into whole descriptors.
    Layout = 4,
    /// The sum of the words is not 0.
    Checksum = 5,
    /// A memory descriptor's type is not allowed.
    Type = 6,
}

impl Refusal {
    pub const ALL: [Refusal; 6] = [
        Refusal::Short,
        Refusal::Signature,
        Refusal::Length,
        Refusal::Layout,
        Refusal::Checksum,
        Refusal::Type,
    ];

    /// The interface's number for this refusal.
    pub const fn number(self) -> u32 {
        self as u32
    }

    pub const fn name(self) -> &'static str {
        match self {
            Refusal::Short => "short",
            Refusal::Signature => "signature",
            Refusal::Length => "length",
            Refusal::Layout => "layout",
            Refusal::Checksum => "checksum",
            Refusal::Type => "type",
        }
    }
}

/// Why the writer refuses; the numbers are the interface's.
#[derive(Clone, Copy, PartialEq, Eq, PartialOrd, Ord, Debug, Hash)]
#[repr(u32)]
pub enum WriteRefusal {
    /// A memory descriptor's type is not allowed.
    Type = 6,
    /// The length field cannot tell of so many bytes.
    Large = 7,
    /// The buffer has fewer bytes than the page.
    Room = 8,
}

impl WriteRefusal {
    pub const ALL: [WriteRefusal; 3] =
        [WriteRefusal::Type, WriteRefusal::Large, WriteRefusal::Room];

    /// The interface's number for this refusal.
    pub const fn number(self) -> u32 {
        self as u32
    }

    pub const fn name(self) -> &'static str {
        match self {
            WriteRefusal::Type => "type",
            WriteRefusal::Large => "large",
            WriteRefusal::Room => "room",
        }
    }
}

/// Bytes of a slice from an offset on.
fn bytes_at<const COUNT: usize>(bytes: &[u8], offset: usize) -> [u8; COUNT] {
    std::array::from_fn(|byte| bytes[offset + byte])
}

/// A number of the header that has 16 bits.
fn half(bytes: &[u8], offset: usize) -> usize {
    usize::from(u16::from_le_bytes(bytes_at(bytes, offset)))
}

/// The sum of the 16-bit words modulo 65536; a last byte alone makes no word.
pub fn sum(bytes: &[u8]) -> u16 {
    let (words, _) = bytes.as_chunks::<2>();
    words
        .iter()
        .fold(0, |sum, &word| sum.wrapping_add(u16::from_le_bytes(word)))
}

/// Reads a page.
pub fn read(bytes: &[u8]) -> Result<Page, Refusal> {
    if bytes.len() < HEADER_BYTES {
        return Err(Refusal::Short);
    }
    if !bytes.starts_with(&SIGNATURE) {
        return Err(Refusal::Signature);
    }
    let length = half(bytes, LENGTH);
    if length != bytes.len() {
        return Err(Refusal::Length);
    }
    let memory_offset = half(bytes, MEMORY_OFFSET);
    if half(bytes, CPU_OFFSET) != HEADER_BYTES
        || half(bytes, CPU_SIZE) != CPU_BYTES
        || half(bytes, MEMORY_SIZE) != MEMORY_BYTES
        || memory_offset < HEADER_BYTES
        || memory_offset > length
        || !(memory_offset - HEADER_BYTES).is_multiple_of(CPU_BYTES)
        || !(length - memory_offset).is_multiple_of(MEMORY_BYTES)
    {
        return Err(Refusal::Layout);
    }
    if sum(bytes) != 0 {
        return Err(Refusal::Checksum);
    }
    let (cpus, _) = bytes[HEADER_BYTES..memory_offset].as_chunks::<CPU_BYTES>();
    let (memory, _) = bytes[memory_offset..].as_chunks::<MEMORY_BYTES>();
    let contents = Contents {
        header: Header::from_fields(std::array::from_fn(|field| {
            u32::from_le_bytes(bytes_at(bytes, FIRST_FIELD + 4 * field))
        })),
        cpus: cpus.iter().copied().map(Cpu::from_bytes).collect(),
        memory: memory.iter().map(Memory::from_bytes).collect(),
    };
    if !contents.has_allowed_types() {
        return Err(Refusal::Type);
    }
    Ok(Page {
        checksum: u16::from_le_bytes(bytes_at(bytes, CHECKSUM)),
        contents,
    })
}

/// The CPU descriptor of an index, if the page is accepted and has so many.
pub fn cpu(bytes: &[u8], index: usize) -> Option<Cpu> {
    read(bytes).ok()?.contents.cpus.get(index).copied()
}

/// The memory descriptor of an index, if the page is accepted and has so many.
pub fn memory(bytes: &[u8], index: usize) -> Option<Memory> {
    read(bytes).ok()?.contents.memory.get(index).copied()
}

/// Writes a page at the start of the buffer and answers its length.
pub fn write(contents: &Contents, buffer: &mut [u8]) -> Result<usize, WriteRefusal> {
    if !contents.has_allowed_types() {
        return Err(WriteRefusal::Type);
    }
    let length = contents.length();
    if length > LENGTH_LIMIT {
        return Err(WriteRefusal::Large);
    }
    if buffer.len() < length {
        return Err(WriteRefusal::Room);
    }
    let mut page = Vec::with_capacity(length);
    page.extend(SIGNATURE);
    for number in [
        0, // the checksum, which the other words decide
        length,
        HEADER_BYTES,
        CPU_BYTES,
        contents.memory_offset(),
        MEMORY_BYTES,
    ] {
        page.extend((number as u16).to_le_bytes());
    }
    page.extend(
        contents
            .header
            .fields()
            .map(u32::to_le_bytes)
            .as_flattened(),
    );
    page.extend(contents.cpus.iter().flat_map(Cpu::bytes));
    page.extend(contents.memory.iter().flat_map(Memory::bytes));
    let checksum = sum(&page).wrapping_neg();
    page[CHECKSUM..LENGTH].copy_from_slice(&checksum.to_le_bytes());
    buffer[..length].copy_from_slice(&page);
    Ok(length)
}

/// The text that the program hip prints for a page.
pub fn text(bytes: &[u8]) -> String {
    match read(bytes) {
        Ok(page) => page.to_string(),
        Err(refusal) => format!("refused: {}\n", refusal.name()),
    }
}

impl Display for Page {
    /// Writes the text of an accepted page.
    fn fmt(&self, out: &mut Formatter) -> fmt::Result {
        let Page { checksum, contents } = self;
        let Contents {
            header,
            cpus,
            memory,
        } = contents;
        let length = contents.length();
        writeln!(
            out,
            "information page of {length} bytes, checksum {checksum}"
        )?;
        writeln!(out, "features       0x{:08x}", header.features)?;
        writeln!(out, "API version    {}", header.api_version)?;
        writeln!(out, "SEL            {}", header.selectors)?;
        writeln!(out, "EXC            {}", header.exceptions)?;
        writeln!(out, "VMI            {}", header.intercepts)?;
        writeln!(out, "GSI            {}", header.interrupts)?;
        writeln!(out, "page sizes     0x{:08x}", header.page_sizes)?;
        writeln!(out, "UTCB sizes     0x{:08x}", header.utcb_sizes)?;
        writeln!(out, "TSC frequency  {} kHz", header.tsc_frequency)?;
        writeln!(out, "bus frequency  {} kHz", header.bus_frequency)?;
        writeln!(out)?;
        if cpus.is_empty() {
            writeln!(out, "no CPU")?;
        } else {
            writeln!(out, "  CPU  package  core  thread  flags")?;
        }
        for (number, cpu) in cpus.iter().enumerate() {
            let Cpu {
                flags,
                thread,
                core,
                package,
            } = cpu;
            writeln!(
                out,
                "{number:5}  {package:7}  {core:4}  {thread:6}  {flags:5}"
            )?;
        }
        writeln!(out)?;
        if memory.is_empty() {
            writeln!(out, "no memory")?;
        } else {
            let (address, size) = ("address", "size");
            writeln!(out, "range  {address:>18}  {size:>20}   auxiliary  type")?;
        }
        for (index, range) in memory.iter().enumerate() {
            let Memory {
                address,
                size,
                kind,
                auxiliary,
            } = range;
            let name = type_name(*kind).unwrap_or_default();
            writeln!(
                out,
                "{index:5}  0x{address:016x}  {size:20}  0x{auxiliary:08x}  {kind:4}  {name}"
            )?;
        }
        Ok(())
    }
}

/// A page's numbers in lines: `ok`, checksum, length, offsets with their sizes and the ten
/// fields, then each CPU and each range; of a page that is refused the refusal's name.
pub fn lines(bytes: &[u8]) -> String {
    match read(bytes) {
        Ok(page) => {
            let mut out = String::new();
            write_lines(&page, &mut out).expect("a string takes every write");
            out
        }
        Err(refusal) => format!("{}\n", refusal.name()),
    }
}

fn write_lines(page: &Page, out: &mut String) -> fmt::Result {
    let contents = &page.contents;
    write!(out, "ok {} {}", page.checksum, contents.length())?;
    write!(out, " {HEADER_BYTES} {CPU_BYTES}")?;
    write!(out, " {} {MEMORY_BYTES}", contents.memory_offset())?;
    for field in contents.header.fields() {
        write!(out, " {field}")?;
    }
    writeln!(out)?;
    for cpu in &contents.cpus {
        let Cpu {
            flags,
            thread,
            core,
            package,
        } = cpu;
        writeln!(out, "{flags} {thread} {core} {package}")?;
    }
    for range in &contents.memory {
        let Memory {
            address,
            size,
            kind,
            auxiliary,
        } = range;
        writeln!(out, "{address} {size} {kind} {auxiliary}")?;
    }
    Ok(())
}
