//! The proved functions of the information page against the model: random pages
//! from fixed seeds, stored pages and pages at the bounds. `examples/pages.rs`
//! goes on with random pages for as long as is wanted.

mod page_comparison;

use std::fmt::Write;
use std::fs;
use std::path::Path;

use model::hip::{self, Contents, Cpu, Header, Lists, Memory};
use model::page_generator::{good_contents, mend, page, put, written, CPU_LIMIT, MEMORY_LIMIT};
use model::random::Random;
use page_comparison::{Difference, PageComparison};
use rudozhev::hip::{Counts, CPU_BYTES, FIELDS, HEADER_BYTES, MEMORY_BYTES};
use rudozhev::words;

#[test]
fn random_pages_agree() -> Result<(), Difference> {
    const PAGES: u64 = 2_000;
    let mut all = PageComparison::new(1);
    for _ in 0..PAGES {
        all.round()?;
    }
    assert!(all.pages() > PAGES);
    for refusal in 0..=6 {
        let count = all.read.get(&refusal);
        assert!(count.is_some_and(|&count| count > 80), "read, refusal {refusal}: {count:?}");
    }
    for refusal in [0, 6, 7, 8] {
        let count = all.written.get(&refusal);
        assert!(count.is_some_and(|&count| count > 20), "written, refusal {refusal}: {count:?}");
    }
    assert!(all.buffers.iter().all(|&count| count > 200), "buffers: {:?}", all.buffers);
    let descriptors = [all.found, all.missing];
    assert!(descriptors.as_flattened().iter().all(|&count| count > 2_000), "{descriptors:?}");
    Ok(())
}

/// Contents with so many descriptors, of which no two are alike.
fn sized(cpus: usize, memories: usize) -> Contents {
    Contents {
        header: Header::from_fields(std::array::from_fn(|field| 0x0101_0101 * field as u32)),
        cpus: (0..cpus as u32).map(|number| Cpu::from_bytes(number.to_le_bytes())).collect(),
        memory: (0..memories as u64)
            .map(|number| Memory {
                address: number << 32,
                size: u64::MAX - number,
                kind: 1 + number as i32 % 4,
                auxiliary: number as u32,
            })
            .collect(),
    }
}

#[test]
fn the_longest_pages_agree() -> Result<(), Difference> {
    let mut all = PageComparison::new(2);
    for (cpus, memories, refusal) in [
        (0, 0, 0),
        (CPU_LIMIT, 0, 0),
        (CPU_LIMIT + 1, 0, 7),
        (0, MEMORY_LIMIT, 0),
        (1, MEMORY_LIMIT, 0),
        (2, MEMORY_LIMIT, 7),
        (0, MEMORY_LIMIT + 1, 7),
        (CPU_LIMIT - 6, 1, 0),
        (CPU_LIMIT - 5, 1, 7),
        // So long that the length would be that of a page again modulo 65536.
        (CPU_LIMIT + 15, 0, 7),
    ] {
        let contents = sized(cpus, memories);
        let before = all.written.get(&refusal).copied().unwrap_or(0);
        all.write(contents.header, &contents.lists(), &vec![0xa5; contents.length() + 1])?;
        assert_eq!(
            all.written.get(&refusal),
            Some(&(before + 1)),
            "{cpus} CPUs, {memories} ranges"
        );
    }
    assert_eq!(all.pages(), 5);
    Ok(())
}

#[test]
fn every_bit_of_a_page_agrees() -> Result<(), Difference> {
    let mut all = PageComparison::new(3);
    let whole = written(&sized(4, 7));
    for bit in 0..8 * whole.len() {
        let mut page = whole.clone();
        page[bit / 8] ^= 1 << (bit % 8);
        all.read(&page)?;
        // With the checksum that fits the other tests decide.
        mend(&mut page);
        all.read(&page)?;
    }
    for refusal in [0, 2, 3, 4, 5, 6] {
        assert!(all.read.contains_key(&refusal), "refusal {refusal}");
    }
    Ok(())
}

#[test]
fn pages_cut_and_with_every_length_agree() -> Result<(), Difference> {
    let mut all = PageComparison::new(4);
    let mut longer = written(&sized(4, 7));
    let length = longer.len();
    longer.extend([0; 30]);
    for count in 0..=longer.len() {
        all.read(&longer[..count])?;
        let mut page = longer[..count].to_vec();
        if count >= HEADER_BYTES {
            put(&mut page, 6, count);
            mend(&mut page);
        }
        all.read(&page)?;
    }
    // Of the lengths that are said rightly, some cut between descriptors.
    let accepted = all.read.get(&0).copied();
    assert!(accepted.is_some_and(|accepted| accepted >= 8), "{accepted:?} of {length} bytes");
    Ok(())
}

#[test]
fn buffers_of_every_length_agree() -> Result<(), Difference> {
    let mut all = PageComparison::new(5);
    let mut random = Random::new(5);
    for _ in 0..8 {
        let contents = good_contents(&mut random);
        let contents = if contents.length() < 300 { contents } else { sized(3, 5) };
        let length = contents.length();
        for room in 0..length + 20 {
            let buffer: Vec<u8> = (0..room).map(|_| random.word() as u8).collect();
            all.write(contents.header, &contents.lists(), &buffer)?;
        }
    }
    Ok(())
}

#[test]
fn the_shortest_list_says_how_many() -> Result<(), Difference> {
    let mut all = PageComparison::new(6);
    let contents = sized(2, 3);
    let whole = contents.lists();
    for lengths in 0..4_usize.pow(4) {
        for cpu_bytes in 0..=whole.cpus.len() {
            let [addresses, sizes, types, auxiliaries] =
                [1, 4, 16, 64].map(|place| lengths / place % 4);
            let lists = Lists {
                cpus: whole.cpus[..cpu_bytes].to_vec(),
                addresses: whole.addresses[..addresses].to_vec(),
                sizes: whole.sizes[..sizes].to_vec(),
                types: whole.types[..types].to_vec(),
                auxiliaries: whole.auxiliaries[..auxiliaries].to_vec(),
            };
            all.write(contents.header, &lists, &[7; 200])?;
        }
    }
    assert_eq!(all.written.get(&0), Some(&(256 * 9)));
    Ok(())
}

/// A page's lines, as the model writes them, by the proved functions.
fn lines(bytes: &[u8]) -> String {
    let mut fields = [0; FIELDS];
    let counts = match words::hip_read(bytes, &mut fields) {
        Ok(counts) => counts,
        Err(refusal) => {
            let text = refusal.to_string();
            return format!("{}\n", text.split(':').next().unwrap_or_default());
        }
    };
    let checksum = u16::from_le_bytes([bytes[4], bytes[5]]);
    let start = HEADER_BYTES + CPU_BYTES * counts.cpus as usize;
    let mut out = format!("ok {checksum} {} {HEADER_BYTES} {CPU_BYTES} {start}", bytes.len());
    let mut add = |text: String| out.write_str(&text).expect("a string takes every write");
    add(format!(" {MEMORY_BYTES}"));
    fields.iter().for_each(|field| add(format!(" {field}")));
    add("\n".into());
    for index in 0..counts.cpus {
        let [flags, thread, core, package] = words::hip_cpu(bytes, index).expect("a CPU");
        add(format!("{flags} {thread} {core} {package}\n"));
    }
    for index in 0..counts.memories {
        let mut numbers = [0; 3];
        let kind = words::hip_memory(bytes, index, &mut numbers).expect("a memory descriptor");
        let [address, size, auxiliary] = numbers;
        add(format!("{address} {size} {kind} {auxiliary}\n"));
    }
    out
}

#[test]
fn every_stored_page_is_met() -> Result<(), Difference> {
    let mut all = PageComparison::new(7);
    let directory = Path::new(env!("CARGO_MANIFEST_DIR")).join("../model/tests/vectors/pages");
    let mut count = 0;
    for entry in fs::read_dir(directory).expect("the stored pages") {
        let path = entry.expect("a readable directory").path();
        if path.extension().is_some_and(|ending| ending == "bin") {
            let bytes = fs::read(&path).expect("a readable page");
            let expected = fs::read_to_string(path.with_extension("txt")).expect("its lines");
            assert!(lines(&bytes) == expected, "{}", path.display());
            all.read(&bytes)?;
            count += 1;
        }
    }
    assert_eq!(count, 40);
    // None of them has a wrong signature.
    let counts = [0, 1, 2, 3, 4, 5, 6].map(|refusal| all.read.get(&refusal).copied().unwrap_or(0));
    assert_eq!(counts, [19, 2, 0, 2, 13, 3, 1]);
    Ok(())
}

#[test]
fn lines_of_random_pages_are_the_models() {
    let mut random = Random::new(8);
    for _ in 0..200 {
        let bytes = page(&mut random);
        assert!(bytes.len() > 10_000 || lines(&bytes) == hip::lines(&bytes));
    }
}

#[test]
fn bytes_need_no_alignment() {
    let contents = sized(3, 4);
    let whole = written(&contents);
    for offset in 0..16 {
        let mut memory = vec![0; whole.len() + 16];
        let room = &mut memory[offset..];
        let Lists { cpus, addresses, sizes, types, auxiliaries } = contents.lists();
        let fields = contents.header.fields();
        let reply =
            words::hip_write(&fields, &cpus, &addresses, &sizes, &types, &auxiliaries, room);
        assert_eq!(reply, Ok(whole.len()));
        let page = &memory[offset..offset + whole.len()];
        assert!(page == whole);
        let mut read = [0; FIELDS];
        assert_eq!(words::hip_read(page, &mut read), Ok(Counts { cpus: 3, memories: 4 }));
        assert_eq!(read, fields);
        assert_eq!(words::hip_cpu(page, 2), Some([2, 0, 0, 0]));
        let mut numbers = [0; 3];
        assert_eq!(words::hip_memory(page, 3, &mut numbers), Some(4));
        assert_eq!(numbers, [3 << 32, u64::MAX - 3, 3]);
    }
}
