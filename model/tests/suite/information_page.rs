//! The information page: the manual's example, each refusal and their order,
//! the boundaries, both ways between pages and contents, and stored pages.

use std::fs;
use std::path::Path;

use model::hip::{
    cpu, lines, memory, read, sum, text, type_name, write, Contents, Cpu, Header, Lists, Memory,
    Page, Refusal, WriteRefusal,
};
use model::page_generator::{
    buffer, contents, damaged_page, good_contents, lists, mend, page, put, written, Flaw,
    ALLOWED_TYPES, NOTABLE_TYPES,
};
use model::random::Random;

/// The example of the interface manual.
const EXAMPLE: [u8; 240] = [
    0x4e, 0x4f, 0x56, 0x41, // signature
    0xca, 0x75, // checksum
    0xf0, 0x00, // length
    0x38, 0x00, 0x04, 0x00, // CPU offset and size
    0x48, 0x00, 0x18, 0x00, // memory offset and size
    0x01, 0x00, 0x00, 0x00, // features
    0x05, 0x00, 0x00, 0x00, // API version
    0x00, 0x01, 0x00, 0x00, // SEL
    0x20, 0x00, 0x00, 0x00, // EXC
    0xd0, 0x00, 0x00, 0x00, // VMI
    0x18, 0x00, 0x00, 0x00, // GSI
    0x00, 0x10, 0x40, 0x00, // page sizes
    0x00, 0x10, 0x00, 0x00, // UTCB sizes
    0x80, 0x9f, 0x28, 0x00, // TSC frequency
    0xa0, 0x86, 0x01, 0x00, // bus frequency
    0x01, 0x00, 0x00, 0x00, // CPU 0
    0x01, 0x01, 0x00, 0x00, // CPU 1
    0x01, 0x00, 0x01, 0x00, // CPU 2
    0x00, 0x01, 0x03, 0x02, // CPU 3
    0x00, 0x00, 0x00, 0x00, 0x00, 0x00, 0x00, 0x00, // range 0
    0x00, 0xfc, 0x09, 0x00, 0x00, 0x00, 0x00, 0x00, //
    0x01, 0x00, 0x00, 0x00, 0x00, 0x00, 0x00, 0x00, //
    0x00, 0x00, 0x10, 0x00, 0x00, 0x00, 0x00, 0x00, // range 1
    0x00, 0x00, 0xe0, 0xbf, 0x00, 0x00, 0x00, 0x00, //
    0x01, 0x00, 0x00, 0x00, 0x00, 0x00, 0x00, 0x00, //
    0x00, 0x00, 0xf0, 0xbf, 0x00, 0x00, 0x00, 0x00, // range 2
    0x00, 0x00, 0x01, 0x00, 0x00, 0x00, 0x00, 0x00, //
    0x03, 0x00, 0x00, 0x00, 0x00, 0x00, 0x00, 0x00, //
    0x00, 0x00, 0xf1, 0xbf, 0x00, 0x00, 0x00, 0x00, // range 3
    0x00, 0x00, 0x0f, 0x00, 0x00, 0x00, 0x00, 0x00, //
    0x04, 0x00, 0x00, 0x00, 0x00, 0x00, 0x00, 0x00, //
    0x00, 0x00, 0xe0, 0xfe, 0x00, 0x00, 0x00, 0x00, // range 4
    0x00, 0x10, 0x00, 0x00, 0x00, 0x00, 0x00, 0x00, //
    0x02, 0x00, 0x00, 0x00, 0x00, 0x00, 0x00, 0x00, //
    0x00, 0x00, 0x20, 0x00, 0x00, 0x00, 0x00, 0x00, // range 5
    0x00, 0x00, 0x08, 0x00, 0x00, 0x00, 0x00, 0x00, //
    0xff, 0xff, 0xff, 0xff, 0x00, 0x00, 0x00, 0x00, //
    0x00, 0x00, 0x40, 0x00, 0x00, 0x00, 0x00, 0x00, // range 6
    0x00, 0x60, 0x00, 0x00, 0x00, 0x00, 0x00, 0x00, //
    0xfe, 0xff, 0xff, 0xff, 0x00, 0x00, 0x30, 0x00, //
];

/// Where the ranges of the example begin, and where their types do.
const EXAMPLE_RANGES: usize = 72;
const EXAMPLE_TYPES: [usize; 7] = [88, 112, 136, 160, 184, 208, 232];

const EXAMPLE_TEXT: &str = "\
information page of 240 bytes, checksum 30154
features       0x00000001
API version    5
SEL            256
EXC            32
VMI            208
GSI            24
page sizes     0x00401000
UTCB sizes     0x00001000
TSC frequency  2662272 kHz
bus frequency  100000 kHz

  CPU  package  core  thread  flags
    0        0     0       0      1
    1        0     0       1      1
    2        0     1       0      1
    3        2     3       1      0

range             address                  size   auxiliary  type
    0  0x0000000000000000                654336  0x00000000     1  available memory
    1  0x0000000000100000            3219128320  0x00000000     1  available memory
    2  0x00000000bff00000                 65536  0x00000000     3  ACPI reclaim memory
    3  0x00000000bff10000                983040  0x00000000     4  ACPI NVS memory
    4  0x00000000fee00000                  4096  0x00000000     2  reserved memory
    5  0x0000000000200000                524288  0x00000000    -1  microhypervisor
    6  0x0000000000400000                 24576  0x00300000    -2  multiboot module
";

const fn range(address: u64, size: u64, kind: i32, auxiliary: u32) -> Memory {
    Memory {
        address,
        size,
        kind,
        auxiliary,
    }
}

const fn processor(flags: u8, thread: u8, core: u8, package: u8) -> Cpu {
    Cpu {
        flags,
        thread,
        core,
        package,
    }
}

fn example() -> Contents {
    Contents {
        header: Header {
            features: 1,
            api_version: 5,
            selectors: 256,
            exceptions: 32,
            intercepts: 208,
            interrupts: 24,
            page_sizes: 1 << 12 | 1 << 22,
            utcb_sizes: 1 << 12,
            tsc_frequency: 2_662_272,
            bus_frequency: 100_000,
        },
        cpus: vec![
            processor(1, 0, 0, 0),
            processor(1, 1, 0, 0),
            processor(1, 0, 1, 0),
            processor(0, 1, 3, 2),
        ],
        memory: vec![
            range(0, 654_336, 1, 0),
            range(1_048_576, 3_219_128_320, 1, 0),
            range(3_220_176_896, 65_536, 3, 0),
            range(3_220_242_432, 983_040, 4, 0),
            range(4_276_092_928, 4096, 2, 0),
            range(2_097_152, 524_288, -1, 0),
            range(4_194_304, 24_576, -2, 3_145_728),
        ],
    }
}

/// Contents with as many descriptors, no two of them alike.
fn sized(cpus: usize, ranges: usize) -> Contents {
    Contents {
        header: Header::from_fields(std::array::from_fn(|field| {
            0x0101_0101 * (field as u32 + 1)
        })),
        cpus: (0..cpus)
            .map(|number| Cpu::from_bytes((number as u32).to_le_bytes()))
            .collect(),
        memory: (0..ranges)
            .map(|index| {
                let number = index as u64;
                let kind = ALLOWED_TYPES[index % ALLOWED_TYPES.len()];
                range(number << 40, number * 3, kind, !(index as u32))
            })
            .collect(),
    }
}

/// The refusal of bytes, which have no descriptor and of which both forms tell no more.
fn refusal(bytes: &[u8]) -> Option<Refusal> {
    let refusal = read(bytes).err()?;
    let name = refusal.name();
    assert_eq!(text(bytes), format!("refused: {name}\n"));
    assert_eq!(lines(bytes), format!("{name}\n"));
    assert_eq!((cpu(bytes, 0), memory(bytes, 0)), (None, None));
    Some(refusal)
}

/// The refusal of the example after a change, with its checksum mended.
fn mended(change: impl Fn(&mut Vec<u8>)) -> Option<Refusal> {
    let mut bytes = EXAMPLE.to_vec();
    change(&mut bytes);
    mend(&mut bytes);
    refusal(&bytes)
}

#[test]
fn the_example_is_read_and_written() {
    let page = Page {
        checksum: 30_154,
        contents: example(),
    };
    assert_eq!(read(&EXAMPLE), Ok(page));
    assert_eq!(sum(&EXAMPLE), 0);
    let mut buffer = [0x5a; 240];
    assert_eq!(write(&example(), &mut buffer), Ok(240));
    assert_eq!(buffer, EXAMPLE);
    assert_eq!((example().memory_offset(), example().length()), (72, 240));
    for (index, expected) in example().cpus.into_iter().enumerate() {
        assert_eq!(cpu(&EXAMPLE, index), Some(expected));
    }
    for (index, expected) in example().memory.into_iter().enumerate() {
        assert_eq!(memory(&EXAMPLE, index), Some(expected));
    }
    for index in [4, 7, 65_536, 1 << 30, usize::MAX / 2 + 1, usize::MAX] {
        assert_eq!(cpu(&EXAMPLE, index), None);
        assert_eq!(memory(&EXAMPLE, index.max(7)), None);
    }
}

#[test]
fn the_example_has_its_text() {
    assert_eq!(text(&EXAMPLE), EXAMPLE_TEXT);
    assert_eq!(
        lines(&EXAMPLE),
        "ok 30154 240 56 4 72 24 1 5 256 32 208 24 4198400 4096 2662272 100000\n\
         1 0 0 0\n1 1 0 0\n1 0 1 0\n0 1 3 2\n\
         0 654336 1 0\n1048576 3219128320 1 0\n3220176896 65536 3 0\n3220242432 983040 4 0\n\
         4276092928 4096 2 0\n2097152 524288 -1 0\n4194304 24576 -2 3145728\n"
    );
}

#[test]
fn the_example_has_its_refusals() {
    let mut bytes = EXAMPLE;
    bytes[16] = 0x02;
    assert_eq!(text(&bytes), "refused: checksum\n");
    assert_eq!(refusal(&bytes), Some(Refusal::Checksum));
    let mut bytes = EXAMPLE[..239].to_vec();
    assert_eq!(text(&bytes), "refused: length\n");
    assert_eq!(refusal(&bytes), Some(Refusal::Length));
    bytes[6] = 239;
    assert_eq!(text(&bytes), "refused: layout\n");
    assert_eq!(refusal(&bytes), Some(Refusal::Layout));
}

#[test]
fn refusals_have_their_numbers_and_names() {
    let reader = Refusal::ALL.map(|refusal| (refusal.number(), refusal.name()));
    let expected = ["short", "signature", "length", "layout", "checksum", "type"];
    assert!(reader.into_iter().eq((1..).zip(expected)));
    let writer = WriteRefusal::ALL.map(|refusal| (refusal.number(), refusal.name()));
    assert_eq!(writer, [(6, "type"), (7, "large"), (8, "room")]);
}

#[test]
fn the_first_test_that_fails_refuses() {
    for broken in 0..1 << Refusal::ALL.len() {
        let breaks = |refusal: Refusal| broken & 1 << (refusal.number() - 1) != 0;
        let mut bytes = EXAMPLE.to_vec();
        if breaks(Refusal::Type) {
            bytes[EXAMPLE_TYPES[6]..][..4].fill(0);
        }
        if breaks(Refusal::Layout) {
            bytes[10] = 5;
        }
        if breaks(Refusal::Signature) {
            bytes[3] = b'a';
        }
        mend(&mut bytes);
        if breaks(Refusal::Checksum) {
            bytes[55] ^= 0x80;
        }
        if breaks(Refusal::Length) {
            // Words of 0 change no sum, and the bytes of a range no layout.
            bytes.extend([0; 24]);
        }
        if breaks(Refusal::Short) {
            bytes.truncate(55);
        }
        let first = Refusal::ALL.into_iter().find(|&refusal| breaks(refusal));
        assert_eq!(refusal(&bytes), first, "tests {broken:06b} fail");
    }
}

#[test]
fn bytes_of_no_whole_page_are_refused() {
    for length in 0..240 {
        let expected = match length {
            0..56 => Refusal::Short,
            _ => Refusal::Length,
        };
        assert_eq!(refusal(&EXAMPLE[..length]), Some(expected), "{length}");
        assert_eq!(
            refusal(&vec![0; length]),
            Some(expected.min(Refusal::Signature))
        );
    }
    for more in 1..=24 {
        let mut bytes = EXAMPLE.to_vec();
        bytes.resize(240 + more, 0);
        assert_eq!(refusal(&bytes), Some(Refusal::Length));
        put(&mut bytes, 6, 240 + more);
        mend(&mut bytes);
        let expected = match more {
            24 => Refusal::Type,
            _ => Refusal::Layout,
        };
        assert_eq!(refusal(&bytes), Some(expected), "{more} more");
    }
}

#[test]
fn a_header_alone_is_a_page() {
    let bytes = written(&sized(0, 0));
    assert_eq!(bytes.len(), 56);
    assert_eq!(read(&bytes).map(|page| page.contents), Ok(sized(0, 0)));
    assert_eq!(refusal(&bytes[..55]), Some(Refusal::Short));
    let mut bytes = bytes[..55].to_vec();
    put(&mut bytes, 6, 55);
    mend(&mut bytes);
    assert_eq!(refusal(&bytes), Some(Refusal::Short));
}

#[test]
fn bytes_longer_than_any_page_are_refused() {
    for length in [65_535, 65_536, 65_537, 65_536 + 240] {
        let mut bytes = EXAMPLE.to_vec();
        bytes.resize(length, 0);
        for told in [240, length] {
            put(&mut bytes, 6, told);
            mend(&mut bytes);
            // The parts of an odd length are not whole.
            let expected = match (told, length) {
                (65_535, 65_535) => Refusal::Layout,
                _ => Refusal::Length,
            };
            assert_eq!(refusal(&bytes), Some(expected), "{told} of {length}");
            let read_by_the_program = &bytes[..length.min(65_536)];
            assert_eq!(text(read_by_the_program), text(&bytes));
        }
        bytes[0] = 0;
        assert_eq!(refusal(&bytes), Some(Refusal::Signature));
    }
}

#[test]
fn the_signature_is_tested_byte_for_byte() {
    for byte in 0..4 {
        for bit in 0..8 {
            let flip = |bytes: &mut Vec<u8>| bytes[byte] ^= 1 << bit;
            assert_eq!(mended(flip), Some(Refusal::Signature));
        }
    }
    assert_eq!(
        mended(|bytes| bytes[..4].reverse()),
        Some(Refusal::Signature)
    );
    assert_eq!(
        mended(|bytes| bytes[..4].make_ascii_lowercase()),
        Some(Refusal::Signature)
    );
}

#[test]
fn the_length_field_is_little_endian() {
    assert_eq!(mended(|bytes| bytes.swap(6, 7)), Some(Refusal::Length));
    let bytes = written(&sized(0, 11));
    assert_eq!(bytes[6..8], [0x40, 0x01]);
    assert_eq!(refusal(&bytes), None);
    for length in [239, 241, 320, 0, 65_535] {
        assert_eq!(mended(|bytes| put(bytes, 6, length)), Some(Refusal::Length));
    }
}

#[test]
fn each_part_of_the_layout_is_tested() {
    let with = |at: usize, number: usize| mended(|bytes| put(bytes, at, number));
    for number in (0..300).chain([0x3800, 0x0400, 0x1800, 0x4800, 65_512, 65_535]) {
        let refused = |good: bool| (!good).then_some(Refusal::Layout);
        assert_eq!(
            with(8, number),
            refused(number == 56),
            "CPU offset {number}"
        );
        assert_eq!(with(10, number), refused(number == 4), "CPU size {number}");
        assert_eq!(
            with(14, number),
            refused(number == 24),
            "memory size {number}"
        );
        // Where the ranges begin among other descriptors, only the types can still refuse.
        let expected = match number {
            72 | 96 | 120 | 144 | 168 | 192 | 216 | 240 => None,
            _ => Some(Refusal::Layout),
        };
        assert_eq!(with(12, number), expected, "memory offset {number}");
    }
    assert_eq!(
        mended(|bytes| {
            put(bytes, 10, 24);
            put(bytes, 14, 4);
        }),
        Some(Refusal::Layout),
        "sizes exchanged"
    );
    assert_eq!(
        mended(|bytes| {
            put(bytes, 8, 64);
            put(bytes, 12, 56);
        }),
        Some(Refusal::Layout),
        "offsets exchanged"
    );
}

#[test]
fn the_memory_offset_lies_between_the_header_and_the_end() {
    // Six CPU descriptors have the bytes of a range, here of type 1.
    let mut six = sized(6, 0);
    six.cpus[4] = Cpu::from_bytes([1, 0, 0, 0]);
    let bytes = written(&six);
    let moved = |offset: usize| {
        let mut bytes = bytes.clone();
        put(&mut bytes, 12, offset);
        mend(&mut bytes);
        bytes
    };
    let page = read(&moved(56)).expect("a page without CPU");
    assert_eq!(
        (page.contents.cpus.len(), page.contents.memory.len()),
        (0, 1)
    );
    assert_eq!(page.contents.memory[0].kind, 1);
    let page = read(&moved(80)).expect("a page without memory");
    assert_eq!(
        (page.contents.cpus.len(), page.contents.memory.len()),
        (6, 0)
    );
    // A descriptor beyond either end keeps the parts whole.
    for offset in [8, 32, 52, 55, 57, 60, 76, 79, 81, 84, 96, 104, 120, 128] {
        assert_eq!(refusal(&moved(offset)), Some(Refusal::Layout), "{offset}");
    }
}

#[test]
fn the_cpu_part_has_whole_descriptors() {
    for ranges in 0..3 {
        let contents = written(&sized(0, ranges));
        for bytes in 0..=24 {
            let mut page = contents.clone();
            page.splice(56..56, vec![7; bytes]);
            let length = page.len();
            put(&mut page, 6, length);
            put(&mut page, 12, 56 + bytes);
            mend(&mut page);
            let expected = (bytes % 4 != 0).then_some(Refusal::Layout);
            assert_eq!(refusal(&page), expected, "{bytes}, {ranges}");
        }
    }
}

#[test]
fn an_odd_length_is_refused_for_its_layout() {
    for offset in [71, 72, 73] {
        for length in (57..240).step_by(2) {
            let mut bytes = EXAMPLE[..length].to_vec();
            put(&mut bytes, 6, length);
            put(&mut bytes, 12, offset);
            mend(&mut bytes);
            assert_eq!(refusal(&bytes), Some(Refusal::Layout), "{length}, {offset}");
        }
    }
}

#[test]
fn one_checksum_fits() {
    let mut bytes = EXAMPLE;
    for checksum in 0..=u16::MAX {
        put(&mut bytes, 4, usize::from(checksum));
        let expected = (checksum != 30_154).then_some(Refusal::Checksum);
        assert_eq!(read(&bytes).err(), expected, "{checksum}");
    }
}

#[test]
fn every_bit_of_a_page_counts() {
    for bit in 0..EXAMPLE.len() * 8 {
        let byte = bit / 8;
        let mut bytes = EXAMPLE;
        bytes[byte] ^= 1 << (bit % 8);
        let expected = match byte {
            0..4 => Refusal::Signature,
            6..8 => Refusal::Length,
            8..16 => Refusal::Layout,
            _ => Refusal::Checksum,
        };
        assert_eq!(refusal(&bytes), Some(expected), "bit {bit}");
        mend(&mut bytes);
        match byte {
            0..4 | 6..16 => assert_eq!(refusal(&bytes), Some(expected)),
            4..6 => assert_eq!(bytes, EXAMPLE),
            // Another bit makes 3 of 1, 2 or 1 of 3, 3 of 2, -2 of -1 and -1 of -2.
            _ if EXAMPLE_TYPES.iter().any(|at| (*at..at + 4).contains(&byte)) => {
                let allowed = matches!(
                    (byte, bit % 8),
                    (88 | 112, 1) | (136, 0 | 1) | (184 | 208 | 232, 0)
                );
                assert_eq!(refusal(&bytes), (!allowed).then_some(Refusal::Type));
            }
            _ => {
                let page = read(&bytes).expect("an accepted page");
                assert_ne!(page.contents, example(), "bit {bit} is read");
                assert_eq!(written(&page.contents), bytes);
            }
        }
    }
}

#[test]
fn words_that_make_up_for_each_other_keep_the_sum() {
    for (first, second) in [(16, 20), (56, 238), (54, 72), (4, 30)] {
        let mut bytes = EXAMPLE;
        let low = |bytes: &[u8], at: usize| u16::from_le_bytes([bytes[at], bytes[at + 1]]);
        let (up, down) = (low(&bytes, first), low(&bytes, second));
        put(&mut bytes, first, usize::from(up.wrapping_add(0x1234)));
        assert_eq!(refusal(&bytes), Some(Refusal::Checksum));
        put(&mut bytes, second, usize::from(down.wrapping_sub(0x1234)));
        assert_eq!(refusal(&bytes), None, "{first} and {second}");
        // A sum that is right but for its carries is wrong.
        put(&mut bytes, second, usize::from(down.wrapping_sub(0x1235)));
        assert_eq!(refusal(&bytes), Some(Refusal::Checksum));
    }
}

#[test]
fn only_six_types_are_allowed() {
    let allowed = |kind: i32| (-2..=4).contains(&kind) && kind != 0;
    let near = -70_000..=70_000;
    for kind in near.chain(NOTABLE_TYPES) {
        assert_eq!(type_name(kind).is_some(), allowed(kind), "{kind}");
    }
    for kind in NOTABLE_TYPES.into_iter().chain(-300..300) {
        for at in EXAMPLE_TYPES {
            let expected = (!allowed(kind)).then_some(Refusal::Type);
            let set = |bytes: &mut Vec<u8>| bytes[at..at + 4].copy_from_slice(&kind.to_le_bytes());
            assert_eq!(mended(set), expected, "{kind} at {at}");
            let mut contents = example();
            contents.memory[(at - EXAMPLE_RANGES) / 24].kind = kind;
            let mut buffer = [0x5a; 241];
            let expected = match allowed(kind) {
                true => Ok(240),
                false => Err(WriteRefusal::Type),
            };
            assert_eq!(write(&contents, &mut buffer), expected, "{kind} at {at}");
            assert_eq!(buffer == [0x5a; 241], expected.is_err());
        }
    }
}

#[test]
fn every_number_has_its_place() {
    let contents = Contents {
        header: Header {
            features: 0x1312_1110,
            api_version: 0x1716_1514,
            selectors: 0x1b1a_1918,
            exceptions: 0x1f1e_1d1c,
            intercepts: 0x2322_2120,
            interrupts: 0x2726_2524,
            page_sizes: 0x2b2a_2928,
            utcb_sizes: 0x2f2e_2d2c,
            tsc_frequency: 0x3332_3130,
            bus_frequency: 0x3736_3534,
        },
        cpus: vec![Cpu {
            flags: 0x38,
            thread: 0x39,
            core: 0x3a,
            package: 0x3b,
        }],
        memory: vec![range(
            0x4342_4140_3f3e_3d3c,
            0x4b4a_4948_4746_4544,
            3,
            0x5352_5150,
        )],
    };
    let mut expected: Vec<u8> = (0..84).collect();
    expected[..4].copy_from_slice(b"NOVA");
    expected[6..16].copy_from_slice(&[84, 0, 56, 0, 4, 0, 60, 0, 24, 0]);
    expected[76..80].copy_from_slice(&[3, 0, 0, 0]);
    let words = expected
        .chunks(2)
        .enumerate()
        .filter(|&(word, _)| word != 2);
    let rest: u32 = words
        .map(|(_, word)| u32::from(word[0]) + 256 * u32::from(word[1]))
        .sum();
    let checksum = (65_536 - rest % 65_536) % 65_536;
    expected[4] = (checksum % 256) as u8;
    expected[5] = (checksum / 256) as u8;
    assert_eq!(written(&contents), expected);
    let page = Page {
        checksum: checksum as u16,
        contents,
    };
    assert_eq!(read(&expected), Ok(page));
}

#[test]
fn the_largest_pages_are_written_and_read() {
    for (cpus, ranges) in [
        (16_369, 0),
        (16_363, 1),
        (16_369 - 6 * 1000, 1000),
        (7, 2727),
        (1, 2728),
    ] {
        let mut contents = sized(cpus, ranges);
        let bytes = written(&contents);
        assert_eq!(bytes.len(), 65_532);
        assert_eq!(bytes[6..8], [0xfc, 0xff]);
        let page = read(&bytes).expect("an accepted page");
        assert!(page.contents == contents);
        assert_eq!(cpu(&bytes, cpus - 1), contents.cpus.last().copied());
        assert_eq!(cpu(&bytes, cpus), None);
        assert_eq!(
            ranges.checked_sub(1).and_then(|last| memory(&bytes, last)),
            contents.memory.last().copied()
        );
        assert_eq!(memory(&bytes, ranges), None);
        contents.cpus.push(Cpu::default());
        let mut buffer = vec![0x5a; 65_600];
        assert_eq!(write(&contents, &mut buffer), Err(WriteRefusal::Large));
        assert!(buffer.iter().all(|&byte| byte == 0x5a));
    }
    let bytes = written(&sized(0, 2728));
    assert_eq!(bytes.len(), 65_528);
    assert!(read(&bytes).is_ok_and(|page| page.contents == sized(0, 2728)));
}

#[test]
fn what_is_too_large_for_a_page_is_not_written() {
    // Some of these lengths would be those of a page modulo 65536.
    for (cpus, ranges) in [
        (16_370, 0),
        (2, 2728),
        (0, 2729),
        (16_383, 0),
        (16_384, 0),
        (16_398, 0),
        (32_768 + 16, 0),
        (14, 2731),
        (0, 5500),
    ] {
        let contents = sized(cpus, ranges);
        for room in [
            0,
            56,
            65_532,
            65_536,
            contents.length(),
            contents.length() + 1,
        ] {
            let mut buffer = vec![0x5a; room];
            let refused = write(&contents, &mut buffer);
            assert_eq!(refused, Err(WriteRefusal::Large), "{cpus}, {ranges}");
            assert!(buffer.iter().all(|&byte| byte == 0x5a));
        }
    }
}

#[test]
fn the_writers_first_test_that_fails_refuses() {
    for broken in 0..1 << WriteRefusal::ALL.len() {
        let breaks = |refusal: WriteRefusal| broken & 1 << (refusal.number() - 6) != 0;
        let mut contents = sized(16_369, 0);
        contents.cpus.truncate(16_369 - 6);
        contents.memory.push(range(1, 2, 3, 4));
        if breaks(WriteRefusal::Type) {
            contents.memory[0].kind = 0;
        }
        if breaks(WriteRefusal::Large) {
            contents.cpus.push(Cpu::default());
        }
        let room = contents.length() - usize::from(breaks(WriteRefusal::Room));
        let mut buffer = vec![0xa5; room];
        let first = WriteRefusal::ALL
            .into_iter()
            .find(|&refusal| breaks(refusal));
        let expected = first.map_or(Ok(65_532), Err);
        assert_eq!(write(&contents, &mut buffer), expected, "{broken:03b}");
        let kept = buffer.iter().all(|&byte| byte == 0xa5);
        assert_eq!(kept, expected.is_err(), "{broken:03b}");
    }
}

#[test]
fn a_buffer_is_written_as_far_as_the_page() {
    for (cpus, ranges) in [(0, 0), (1, 0), (0, 1), (3, 2), (40, 30)] {
        let contents = sized(cpus, ranges);
        let bytes = written(&contents);
        let length = 56 + 4 * cpus + 24 * ranges;
        assert_eq!(bytes.len(), length);
        for room in 0..length {
            let mut buffer = vec![0xa5; room];
            assert_eq!(write(&contents, &mut buffer), Err(WriteRefusal::Room));
            assert!(
                buffer.iter().all(|&byte| byte == 0xa5),
                "{room} of {length}"
            );
        }
        for more in [0, 1, 2, 3, 4, 24, 56, 1000, 70_000] {
            for mark in [0x00, 0xa5] {
                let mut buffer = vec![mark; length + more];
                assert_eq!(write(&contents, &mut buffer), Ok(length));
                let (page, rest) = buffer.split_at(length);
                assert_eq!(page, bytes);
                assert!(rest.iter().all(|&byte| byte == mark), "{more} more");
            }
        }
    }
}

#[test]
fn lists_are_read_as_far_as_whole_descriptors_go() {
    let whole = example().lists();
    assert_eq!(whole.contents(example().header), example());
    assert_eq!(whole.cpus, EXAMPLE[56..72]);
    for bytes in 0..=20 {
        let mut lists = whole.clone();
        lists.cpus.resize(bytes, 9);
        let contents = lists.contents(example().header);
        assert_eq!(contents.cpus.len(), bytes / 4);
        let common = contents.cpus.len().min(4);
        assert_eq!(contents.cpus[..common], example().cpus[..common]);
        assert_eq!(contents.memory, example().memory);
    }
    // What follows the shortest list, here a type that is not allowed, is not read.
    let cuts: [(&str, fn(&mut Lists, usize)); 4] = [
        ("addresses", |lists, count| lists.addresses.truncate(count)),
        ("sizes", |lists, count| lists.sizes.truncate(count)),
        ("types", |lists, count| lists.types.truncate(count)),
        ("auxiliaries", |lists, count| {
            lists.auxiliaries.truncate(count)
        }),
    ];
    for (name, cut) in cuts {
        for count in 0..=7 {
            let mut lists = whole.clone();
            lists.addresses.extend([1, 2]);
            lists.sizes.extend([1]);
            lists.types.extend([0, 0, 0]);
            lists.auxiliaries.extend([1, 2, 3, 4]);
            if count < 7 {
                lists.types[count] = 0;
            }
            cut(&mut lists, count);
            let contents = lists.contents(example().header);
            assert_eq!(contents.memory, example().memory[..count], "{name}");
            assert_eq!(contents.cpus, example().cpus);
            assert_eq!(written(&contents).len(), 72 + 24 * count);
        }
    }
}

#[test]
fn a_page_without_descriptors_says_so() {
    let mut contents = example();
    contents.cpus.clear();
    let bytes = written(&contents);
    let (head, rest) = EXAMPLE_TEXT
        .split_once("  CPU")
        .expect("the heads of columns");
    let (_, ranges) = rest.split_once("\n\n").expect("an empty line");
    // The CPUs' words and two numbers that are 16 smaller are missing from the sum.
    let head = head.replace("240 bytes, checksum 30154", "224 bytes, checksum 31217");
    assert_eq!(text(&bytes), format!("{head}no CPU\n\n{ranges}"));
    contents.memory.clear();
    let bytes = written(&contents);
    let checksum = u16::from_le_bytes([bytes[4], bytes[5]]);
    let first = format!("56 bytes, checksum {checksum}");
    let head = head.replace("224 bytes, checksum 31217", &first);
    assert_eq!(text(&bytes), format!("{head}no CPU\n\nno memory\n"));
    contents.cpus = example().cpus;
    let text = text(&written(&contents));
    assert!(text.ends_with("\n    3        2     3       1      0\n\nno memory\n"));
}

#[test]
fn the_widest_numbers_end_below_one_another() {
    let mut contents = sized(0, 0);
    contents.header = Header::from_fields([u32::MAX; 10]);
    contents.cpus = vec![Cpu::from_bytes([255, 254, 253, 252]); 16_369 - 6 * 6];
    contents.memory = ALLOWED_TYPES
        .map(|kind| range(u64::MAX, u64::MAX, kind, u32::MAX))
        .to_vec();
    let text = text(&written(&contents));
    let lines: Vec<&str> = text.lines().collect();
    assert_eq!(
        lines[1..11],
        [
            "features       0xffffffff",
            "API version    4294967295",
            "SEL            4294967295",
            "EXC            4294967295",
            "VMI            4294967295",
            "GSI            4294967295",
            "page sizes     0xffffffff",
            "UTCB sizes     0xffffffff",
            "TSC frequency  4294967295 kHz",
            "bus frequency  4294967295 kHz",
        ]
    );
    assert_eq!(lines[13], "    0      252   253     254    255");
    assert_eq!(lines[13 + 16_332], "16332      252   253     254    255");
    assert_eq!(
        lines[13 + 16_333..],
        [
            "",
            "range             address                  size   auxiliary  type",
            "    0  0xffffffffffffffff  18446744073709551615  0xffffffff    -2  multiboot module",
            "    1  0xffffffffffffffff  18446744073709551615  0xffffffff    -1  microhypervisor",
            "    2  0xffffffffffffffff  18446744073709551615  0xffffffff     1  available memory",
            "    3  0xffffffffffffffff  18446744073709551615  0xffffffff     2  reserved memory",
            "    4  0xffffffffffffffff  18446744073709551615  0xffffffff     3  ACPI reclaim memory",
            "    5  0xffffffffffffffff  18446744073709551615  0xffffffff     4  ACPI NVS memory",
        ]
    );
}

/// The first test that fails, each made for itself on whole numbers of any sign.
fn first_failure(bytes: &[u8]) -> Option<Refusal> {
    let half = |at: usize| i64::from(bytes[at]) + 256 * i64::from(bytes[at + 1]);
    let length = bytes.len() as i64;
    let ranges = || bytes[half(12) as usize..].chunks(24);
    let tests: [(Refusal, &dyn Fn() -> bool); 6] = [
        (Refusal::Short, &|| length >= 56),
        (Refusal::Signature, &|| {
            bytes[..4] == [0x4e, 0x4f, 0x56, 0x41]
        }),
        (Refusal::Length, &|| half(6) == length),
        (Refusal::Layout, &|| {
            (half(8), half(10), half(14)) == (56, 4, 24)
                && (56..=length).contains(&half(12))
                && (half(12) - 56) % 4 == 0
                && (length - half(12)) % 24 == 0
        }),
        (Refusal::Checksum, &|| {
            (0..bytes.len()).step_by(2).map(half).sum::<i64>() % 65_536 == 0
        }),
        (Refusal::Type, &|| {
            ranges().all(|range| match range[16..20] {
                [low, 0, 0, 0] => (1..=4).contains(&low),
                [low, 0xff, 0xff, 0xff] => low >= 0xfe,
                _ => false,
            })
        }),
    ];
    tests
        .iter()
        .find(|(_, passes)| !passes())
        .map(|&(refusal, _)| refusal)
}

/// Counts what the reader says of a page, which must be right and lose nothing.
fn count(bytes: &[u8], counts: &mut [u32; 7]) {
    assert_eq!(refusal(bytes), first_failure(bytes));
    match read(bytes) {
        Err(refusal) => counts[refusal.number() as usize] += 1,
        Ok(Page { checksum, contents }) => {
            counts[0] += 1;
            let mut buffer = vec![0xa5; bytes.len() + 3];
            assert_eq!(write(&contents, &mut buffer), Ok(bytes.len()));
            let (page, rest) = buffer.split_at(bytes.len());
            assert!(page == bytes && rest == [0xa5; 3]);
            assert_eq!(checksum, u16::from_le_bytes([bytes[4], bytes[5]]));
        }
    }
}

#[test]
fn damaged_pages_are_refused_or_written_back() {
    let mut random = Random::new(1);
    let mut counts = [0; 7];
    for _ in 0..6000 {
        count(&damaged_page(&mut random), &mut counts);
    }
    for (number, counted) in counts.into_iter().enumerate() {
        assert!(counted > 300, "refusal {number} only {counted} times");
    }
}

#[test]
fn every_flaw_is_refused_and_is_let_pass_where_it_can_be() {
    let (short, signature, length) = (1 << 1, 1 << 2, 1 << 3);
    let (layout, checksum, kind) = (1 << 4, 1 << 5, 1 << 6);
    for flaw in Flaw::ALL {
        let mut random = Random::new(2);
        let mut counts = [[0; 7]; 2];
        for turn in 0..1200 {
            let mut bytes = page(&mut random);
            flaw.apply(&mut random, &mut bytes);
            if turn % 2 == 1 {
                mend(&mut bytes);
            }
            count(&bytes, &mut counts[turn % 2]);
        }
        let reached = counts.map(|counts| {
            (0..7).fold(0, |set, number| {
                set | u32::from(counts[number] > 1) << number
            })
        });
        // Bit 0 stands for pages that are accepted.
        let needed = match flaw {
            Flaw::Bit | Flaw::Bytes => [
                signature | length | layout | checksum,
                1 | signature | length | layout | kind,
            ],
            Flaw::Resized => [length | layout | checksum, 1 | length | layout | kind],
            Flaw::Extended => [length, length],
            Flaw::Sizes | Flaw::CpuOffset => [layout, layout],
            Flaw::MemoryOffset => [1 | layout | checksum, 1 | layout | kind],
            Flaw::Type => [1 | checksum, 1 | kind],
            Flaw::Signature => [signature, signature],
            Flaw::BigEndian => [length | layout | checksum, 1 | length | layout],
            Flaw::Noise => [
                short | signature | length | layout,
                short | signature | length | layout,
            ],
            Flaw::Short => [short, short],
        };
        for (reached, needed) in reached.into_iter().zip(needed) {
            assert_eq!(reached & needed, needed, "{flaw:?}: {counts:?}");
        }
    }
}

#[test]
fn what_is_written_reads_as_its_contents() {
    let mut random = Random::new(3);
    // Pages without CPU, without memory, with either limit and of the greatest length.
    let mut sizes = [0; 5];
    for _ in 0..4000 {
        let contents = good_contents(&mut random);
        let bytes = written(&contents);
        let (cpus, ranges) = (contents.cpus.len(), contents.memory.len());
        assert_eq!(bytes.len(), 56 + 4 * cpus + 24 * ranges);
        let page = read(&bytes).expect("an accepted page");
        assert!(page.contents == contents);
        assert_eq!(first_failure(&bytes), None);
        let reached = [
            cpus == 0,
            ranges == 0,
            cpus == 16_369,
            ranges == 2728,
            bytes.len() == 65_532,
        ];
        for (size, reached) in sizes.iter_mut().zip(reached) {
            *size += u32::from(reached);
        }
    }
    let [no_cpu, no_memory, rest @ ..] = sizes;
    assert!(
        no_cpu > 400 && no_memory > 400 && rest.iter().all(|&count| count > 1),
        "{sizes:?}"
    );
}

#[test]
fn any_contents_are_written_or_leave_the_buffer() {
    let mut random = Random::new(4);
    let mut counts = [0; 4];
    for _ in 0..4000 {
        let contents = contents(&mut random);
        let lists = lists(&mut random, &contents);
        assert!(lists.contents(contents.header) == contents);
        let before = buffer(&mut random, contents.length());
        let mut after = before.clone();
        let allowed = |range: &Memory| ALLOWED_TYPES.contains(&range.kind);
        let length = 56 + 4 * contents.cpus.len() + 24 * contents.memory.len();
        let expected = if !contents.memory.iter().all(allowed) {
            Err(WriteRefusal::Type)
        } else if length > 65_535 {
            Err(WriteRefusal::Large)
        } else if before.len() < length {
            Err(WriteRefusal::Room)
        } else {
            Ok(length)
        };
        assert_eq!(write(&contents, &mut after), expected);
        match expected {
            Err(refusal) => {
                assert!(after == before);
                counts[refusal.number() as usize - 5] += 1;
            }
            Ok(length) => {
                assert!(read(&after[..length]).is_ok_and(|page| page.contents == contents));
                assert!(after[length..] == before[length..]);
                counts[0] += 1;
            }
        }
    }
    let [accepted, kind, large, room] = counts;
    assert!(
        accepted > 1500 && kind > 200 && large > 30 && room > 500,
        "{counts:?}"
    );
}

#[test]
fn the_same_seed_gives_the_same_pages() {
    let mut random = [Random::new(5), Random::new(5), Random::new(6)];
    let [first, again, other] = random
        .each_mut()
        .map(|random| [(); 20].map(|_| (damaged_page(random), contents(random), page(random))));
    assert!(first == again);
    assert!(first != other);
}

#[test]
fn the_stored_pages_are_read_as_they_must_be() {
    let directory = Path::new(env!("CARGO_MANIFEST_DIR")).join("tests/vectors/pages");
    let mut counts = [0; 7];
    for number in 1..=40 {
        let path = directory.join(format!("page-{number}.bin"));
        let bytes = fs::read(&path).expect("a readable page");
        let expected = fs::read_to_string(path.with_extension("txt")).expect("readable lines");
        assert_eq!(lines(&bytes), expected, "page {number}");
        count(&bytes, &mut counts);
    }
    let files = fs::read_dir(directory).expect("a readable directory");
    assert_eq!((files.count(), counts[0]), (80, 19));
}

#[test]
fn the_program_prints_the_text_of_its_pages() {
    let program = Path::new(env!("CARGO_MANIFEST_DIR")).join("../crates/hip");
    let words = fs::read_to_string(program.join("args")).expect("readable arguments");
    let mut expected = String::new();
    let mut missing = Vec::new();
    for word in words.lines() {
        let path = match word {
            "-" => program.join("stdin"),
            name => program.join("data").join(name),
        };
        match fs::read(path) {
            Ok(bytes) => expected += &text(&bytes),
            Err(_) => missing.push(word),
        }
    }
    assert_eq!(missing, ["absent.page", "."]);
    let stored = fs::read_to_string(program.join("stdout")).expect("stored output");
    assert_eq!(stored, expected);
}
