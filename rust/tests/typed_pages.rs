//! The typed information page, by the interface manual's example.

use std::error::Error;

use rudozhev::hip::{
    self, Counts, Cpu, Header, Memory, MemoryArrays, MemoryLists, MemoryType, Page, PageRefusal,
    WriteRefusal, CPU_BYTES, GREATEST_LENGTH, HEADER_BYTES, MEMORY_BYTES,
};
use rudozhev::words;

/// The example's bytes before its ranges.
const FIRST_BYTES: [u8; 72] = [
    0x4e, 0x4f, 0x56, 0x41, 0xca, 0x75, 0xf0, 0x00, 0x38, 0x00, 0x04, 0x00, 0x48, 0x00, 0x18, 0x00,
    0x01, 0x00, 0x00, 0x00, 0x05, 0x00, 0x00, 0x00, 0x00, 0x01, 0x00, 0x00, 0x20, 0x00, 0x00, 0x00,
    0xd0, 0x00, 0x00, 0x00, 0x18, 0x00, 0x00, 0x00, 0x00, 0x10, 0x40, 0x00, 0x00, 0x10, 0x00, 0x00,
    0x80, 0x9f, 0x28, 0x00, 0xa0, 0x86, 0x01, 0x00, 0x01, 0x00, 0x00, 0x00, 0x01, 0x01, 0x00, 0x00,
    0x01, 0x00, 0x01, 0x00, 0x00, 0x01, 0x03, 0x02,
];

/// The bytes of its last range, a multiboot module.
const LAST_BYTES: [u8; MEMORY_BYTES] = [
    0x00, 0x00, 0x40, 0x00, 0x00, 0x00, 0x00, 0x00, 0x00, 0x60, 0x00, 0x00, 0x00, 0x00, 0x00, 0x00,
    0xfe, 0xff, 0xff, 0xff, 0x00, 0x00, 0x30, 0x00,
];

const LENGTH: usize = 240;

const HEADER: Header = Header {
    features: 1,
    api_version: 5,
    selectors: 256,
    exceptions: 32,
    intercepts: 208,
    interrupts: 24,
    page_sizes: 1 << 12 | 1 << 22,
    utcb_sizes: 1 << 12,
    tsc_frequency: 2_662_272,
    bus_frequency: 100_000,
};

const CPUS: [Cpu; 4] = [
    Cpu { flags: 1, thread: 0, core: 0, package: 0 },
    Cpu { flags: 1, thread: 1, core: 0, package: 0 },
    Cpu { flags: 1, thread: 0, core: 1, package: 0 },
    Cpu { flags: 0, thread: 1, core: 3, package: 2 },
];

const MEMORIES: [Memory; 7] = [
    range(0, 654_336, MemoryType::Available, 0),
    range(1_048_576, 3_219_128_320, MemoryType::Available, 0),
    range(3_220_176_896, 65_536, MemoryType::AcpiReclaim, 0),
    range(3_220_242_432, 983_040, MemoryType::AcpiNvs, 0),
    range(4_276_092_928, 4_096, MemoryType::Reserved, 0),
    range(2_097_152, 524_288, MemoryType::Microhypervisor, 0),
    range(4_194_304, 24_576, MemoryType::MultibootModule, 3_145_728),
];

const fn range(address: u64, size: u64, kind: MemoryType, auxiliary: u32) -> Memory {
    Memory { address, size, kind, auxiliary }
}

/// Memory with the example at its start.
fn example() -> [u8; 300] {
    let mut memory = [0xa5; 300];
    let arrays = MemoryArrays::new(MEMORIES);
    assert_eq!(hip::write(&HEADER, &CPUS, arrays.lists(), &mut memory), Ok(LENGTH));
    memory
}

#[test]
fn the_example_is_written_as_in_the_manual() {
    let memory = example();
    assert_eq!(memory[..FIRST_BYTES.len()], FIRST_BYTES);
    assert_eq!(memory[LENGTH - MEMORY_BYTES..LENGTH], LAST_BYTES);
    assert_eq!(memory[LENGTH..], [0xa5; 60]);
    assert_eq!(LENGTH, HEADER_BYTES + CPUS.len() * CPU_BYTES + MEMORIES.len() * MEMORY_BYTES);
}

#[test]
fn the_example_reads_as_it_was_written() -> Result<(), PageRefusal> {
    let memory = example();
    for page in [Page::read(&memory[..LENGTH])?, Page::read_start(&memory)?] {
        assert_eq!(page.bytes(), &memory[..LENGTH]);
        assert_eq!(page.header(), HEADER);
        assert_eq!(page.counts(), Counts { cpus: 4, memories: 7 });
        assert!(page.cpus().eq(CPUS));
        assert!(page.memories().eq(MEMORIES));
        assert_eq!(page.cpu(3), Some(CPUS[3]));
        assert_eq!(page.memory(6), Some(MEMORIES[6]));
        for past in [7, 8, 1 << 30, u32::MAX] {
            assert_eq!((page.cpu(past), page.memory(past)), (None, None));
        }
        assert_eq!(page.cpu(4), None);
        let names = page.memories().map(|memory| memory.kind.to_string()).collect::<Vec<_>>();
        assert_eq!(names[..3], ["available memory", "available memory", "ACPI reclaim memory"]);
        assert_eq!(names[3..5], ["ACPI NVS memory", "reserved memory"]);
        assert_eq!(names[5..], ["microhypervisor", "multiboot module"]);
    }
    Ok(())
}

#[test]
fn an_iterator_outlives_the_page_that_it_is_of() -> Result<(), PageRefusal> {
    let memory = example();
    let cpus = Page::read_start(&memory)?.cpus();
    let mut memories = Page::read_start(&memory)?.memories();
    assert_eq!(cpus.last(), Some(CPUS[3]));
    assert_eq!(memories.nth(5), Some(MEMORIES[5]));
    assert!(memories.eq([MEMORIES[6]]));
    Ok(())
}

#[test]
fn every_refusal_of_the_reader_is_given() {
    let whole = example();
    let refused = |change: fn(&mut [u8; 300]), length: usize| {
        let mut memory = whole;
        change(&mut memory);
        Page::read(&memory[..length]).err()
    };
    assert_eq!(refused(|_| (), LENGTH), None);
    assert_eq!(refused(|_| (), 55), Some(PageRefusal::Short));
    assert_eq!(refused(|memory| memory[0] = 0, LENGTH), Some(PageRefusal::Signature));
    assert_eq!(refused(|_| (), 239), Some(PageRefusal::Length));
    assert_eq!(refused(|memory| memory[6] = 239, 239), Some(PageRefusal::Layout));
    assert_eq!(refused(|memory| memory[16] = 2, LENGTH), Some(PageRefusal::Checksum));
    // A type of 0, with the checksum that fits.
    let change = |memory: &mut [u8; 300]| (memory[88], memory[4]) = (0, memory[4] + 1);
    assert_eq!(refused(change, LENGTH), Some(PageRefusal::Type));
    assert_eq!(Page::read(&[]), Err(PageRefusal::Short));
}

#[test]
fn memory_that_begins_with_no_page_is_refused() {
    let whole = example();
    let refused = |length: [u8; 2], count: usize| {
        let mut memory = whole;
        memory[6..8].copy_from_slice(&length);
        Page::read_start(&memory[..count]).err()
    };
    assert_eq!(refused([240, 0], 300), None);
    assert_eq!(refused([240, 0], 240), None);
    // More than there is, less than the page is, and less than a header.
    assert_eq!(refused([240, 0], 239), Some(PageRefusal::Length));
    assert_eq!(refused([0, 240], 300), Some(PageRefusal::Length));
    assert_eq!(refused([239, 0], 300), Some(PageRefusal::Layout));
    assert_eq!(refused([56, 0], 300), Some(PageRefusal::Layout));
    assert_eq!(refused([55, 0], 300), Some(PageRefusal::Short));
    assert_eq!(refused([0, 0], 300), Some(PageRefusal::Short));
    for count in 0..HEADER_BYTES {
        assert_eq!(Page::read_start(&whole[..count]), Err(PageRefusal::Short));
    }
    assert_eq!(Page::read_start(&[0; 4_096]), Err(PageRefusal::Short));
}

#[test]
fn a_refused_write_leaves_the_buffer() {
    let arrays = MemoryArrays::new(MEMORIES);
    let mut buffer = [0x5a; LENGTH];
    for room in 0..LENGTH {
        let reply = hip::write(&HEADER, &CPUS, arrays.lists(), &mut buffer[..room]);
        assert_eq!(reply, Err(WriteRefusal::Room));
    }
    let many = [Cpu::default(); 16_370];
    let reply = hip::write(&HEADER, &many, MemoryLists::EMPTY, &mut buffer);
    assert_eq!(reply, Err(WriteRefusal::Large));
    let reply = hip::write(&HEADER, &many[1..], MemoryLists::EMPTY, &mut buffer);
    assert_eq!(reply, Err(WriteRefusal::Room));
    let (fields, types) = (HEADER.fields(), [1, 2, 0]);
    let reply = words::hip_write(&fields, &[], &[0; 3], &[0; 3], &types, &[0; 3], &mut buffer);
    assert_eq!(reply, Err(WriteRefusal::Type));
    assert_eq!(buffer, [0x5a; LENGTH]);
}

#[test]
fn the_longest_pages_are_written_and_read() -> Result<(), Box<dyn Error>> {
    let mut buffer = vec![0; GREATEST_LENGTH];
    let cpus = vec![CPUS[3]; 16_369];
    assert_eq!(hip::write(&HEADER, &cpus, MemoryLists::EMPTY, &mut buffer)?, 65_532);
    let page = Page::read_start(&buffer)?;
    assert_eq!(page.counts(), Counts { cpus: 16_369, memories: 0 });
    assert_eq!((page.cpu(16_368), page.cpu(16_369)), (Some(CPUS[3]), None));
    assert_eq!(page.memories().next(), None);

    let (numbers, auxiliaries) = (vec![u64::MAX; 2_728], vec![u32::MAX; 2_728]);
    let kinds = vec![MemoryType::MultibootModule; 2_728];
    let lists = MemoryLists::new(&numbers, &numbers, &kinds, &auxiliaries).expect("equal lists");
    assert_eq!(hip::write(&HEADER, &cpus[..1], lists, &mut buffer)?, 65_532);
    let page = Page::read_start(&buffer)?;
    assert_eq!(page.counts(), Counts { cpus: 1, memories: 2_728 });
    let last = range(u64::MAX, u64::MAX, MemoryType::MultibootModule, u32::MAX);
    assert_eq!((page.memory(2_727), page.memory(2_728)), (Some(last), None));
    assert_eq!(hip::write(&HEADER, &[], MemoryLists::EMPTY, &mut buffer)?, HEADER_BYTES);
    assert_eq!(Page::read_start(&buffer)?.counts(), Counts::default());
    Ok(())
}

#[test]
fn a_refusal_is_told_by_its_name() {
    for (refusal, name) in [
        (PageRefusal::Short, "short"),
        (PageRefusal::Signature, "signature"),
        (PageRefusal::Length, "length"),
        (PageRefusal::Layout, "layout"),
        (PageRefusal::Checksum, "checksum"),
        (PageRefusal::Type, "type"),
    ] {
        assert!(refusal.to_string().starts_with(&format!("{name}: ")), "{refusal}");
    }
    for (refusal, name) in
        [(WriteRefusal::Type, "type"), (WriteRefusal::Large, "large"), (WriteRefusal::Room, "room")]
    {
        assert!(refusal.to_string().starts_with(&format!("{name}: ")), "{refusal}");
    }
}
