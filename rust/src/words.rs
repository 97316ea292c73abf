//! The proved functions over lent slices of any length and content.
//!
//! What the functions ask of their caller, that nobody else writes the slices
//! during a call and that they do not overlap, follows from Rust's references.

use crate::hip::{Counts, PageRefusal, WriteRefusal, CPU_BYTES, FIELDS};
use crate::numbers::{ObjectNumber, Place};
use crate::refusal::Refusal;

/// Places of all domains.
pub const PLACES: u32 = 3_072;

/// Words of a place: resource, permissions, parent place plus 1, depth.
pub const PLACE_WIDTH: usize = 4;

/// Words of the place table.
pub const PLACE_WORDS: usize = PLACES as usize * PLACE_WIDTH;

/// Object records.
pub const RECORDS: u32 = 64;

/// Words of an object record: the kind and four more.
pub const RECORD_WIDTH: usize = 5;

/// Words of the object table.
pub const OBJECT_WORDS: usize = RECORDS as usize * RECORD_WIDTH;

/// Bytes of a dump: the words of the place table, then those of the object table, each
/// with its lowest byte first.
pub const DUMP_BYTES: usize = (PLACE_WORDS + OBJECT_WORDS) * size_of::<u32>();

/// Words of a message block.
pub const BLOCK_WORDS: usize = 64;

/// Words of a block before its data, which begins with the untyped words.
pub const HEADER_WORDS: usize = 4;

/// Words of a block for untyped words and typed items.
pub const DATA_WORDS: usize = BLOCK_WORDS - HEADER_WORDS;

/// The number of CALL, which sends a message through a portal: its selector, and
/// both blocks.
pub const CALL: u32 = 0;

/// The number of CREATE_PD: new selector, PD selector, initial descriptor.
pub const CREATE_PD: u32 = 2;

/// The number of CREATE_EC: new selector, PD selector, CPU, event base.
pub const CREATE_EC: u32 = 3;

/// The number of CREATE_SC: new selector, PD selector, EC selector, QPD.
pub const CREATE_SC: u32 = 4;

/// The number of CREATE_PT: new selector, PD selector, EC selector, MTD, IP,
/// identifier.
pub const CREATE_PT: u32 = 5;

/// The number of CREATE_SM: new selector, PD selector, count.
pub const CREATE_SM: u32 = 6;

/// The number of REVOKE: descriptor, self word.
pub const REVOKE: u32 = 7;

/// The number of LOOKUP: descriptor.
pub const LOOKUP: u32 = 8;

/// The number of SM_CTRL: selector, operation.
pub const SM_CTRL: u32 = 11;

// The functions of the archive, which takes each slice as a pointer and a length, and
// each array as a pointer. They are proved for slices of any length and content: they
// read and write nothing outside the slices and arrays that they are lent, and they keep
// nothing.
extern "C" {
    fn rudozhev_boot(
        places: *mut u32,
        place_words: usize,
        objects: *mut u32,
        object_words: usize,
    ) -> u64;
    fn rudozhev_hypercall(
        number: u32,
        caller: u32,
        a: u32,
        b: u32,
        c: u32,
        d: u32,
        e: u32,
        f: u32,
        places: *mut u32,
        place_words: usize,
        objects: *mut u32,
        object_words: usize,
        source: *const u32,
        source_words: usize,
        target: *mut u32,
        target_words: usize,
    ) -> u64;
    fn rudozhev_census(
        place: u32,
        places: *const u32,
        place_words: usize,
        objects: *const u32,
        object_words: usize,
        list: *mut u32,
        list_words: usize,
    ) -> u64;
    fn rudozhev_damage(
        places: *const u32,
        place_words: usize,
        objects: *const u32,
        object_words: usize,
    ) -> u64;
    fn rudozhev_sound(
        places: *const u32,
        place_words: usize,
        objects: *const u32,
        object_words: usize,
    ) -> u32;
    fn rudozhev_repair(
        places: *mut u32,
        place_words: usize,
        objects: *const u32,
        object_words: usize,
    ) -> u64;
    fn rudozhev_untyped(block: *const u32, block_words: usize) -> u64;
    fn rudozhev_hip_read(page: *const u8, page_bytes: usize, fields: *mut [u32; FIELDS]) -> u64;
    fn rudozhev_hip_cpu(page: *const u8, page_bytes: usize, index: u32) -> u64;
    fn rudozhev_hip_memory(
        page: *const u8,
        page_bytes: usize,
        index: u32,
        numbers: *mut [u64; 3],
    ) -> i32;
    fn rudozhev_hip_write(
        fields: *const [u32; FIELDS],
        cpus: *const u8,
        cpu_bytes: usize,
        addresses: *const u64,
        address_count: usize,
        sizes: *const u64,
        size_count: usize,
        types: *const i32,
        type_count: usize,
        auxiliaries: *const u32,
        auxiliary_count: usize,
        buffer: *mut u8,
        buffer_bytes: usize,
    ) -> u64;
}

/// Where a rule of soundness is broken.
#[derive(Clone, Copy, PartialEq, Eq, Debug)]
pub enum Location {
    /// The lengths are wrong, so no record or place is to blame.
    Lengths,
    /// The lowest record that breaks the rule.
    Record(ObjectNumber),
    /// The lowest place that breaks the rule, where no record does.
    Place(Place),
    /// A number that the interface does not list for the rule; the proved function
    /// never answers so.
    Unknown(u32),
}

/// The first broken rule of soundness, by its number from 1 to 12.
#[derive(Clone, Copy, PartialEq, Eq, Debug)]
pub struct Damage {
    /// The rule's number.
    pub rule: u32,
    /// What breaks it.
    pub at: Location,
}

impl Damage {
    /// Reads a report: the rule in its high half, 0 where the tables are sound, and
    /// the record, or the place counted from the records on, in its low half.
    fn read(report: u64) -> Option<Damage> {
        let (rule, number) = ((report >> 32) as u32, report as u32);
        let at = match (rule, number) {
            (0, 0) => return None,
            (1, 0) => Location::Lengths,
            (0 | 1, _) => Location::Unknown(number),
            _ => ObjectNumber::new(number)
                .map(Location::Record)
                .or_else(|| Place::from_number(number - RECORDS).map(Location::Place))
                .unwrap_or(Location::Unknown(number)),
        };
        Some(Damage { rule, at })
    }
}

/// Writes the tables as they are when the controller starts, whatever they held;
/// refused as damaged where a length is wrong.
pub fn boot(places: &mut [u32], objects: &mut [u32]) -> Result<u32, Refusal> {
    // SAFETY: pointers and lengths are those of two mutable slices. So each pointer
    // is aligned and good for reading and writing its whole length, and nothing
    // else reaches the words of either slice while the call runs.
    Refusal::read(unsafe {
        rudozhev_boot(places.as_mut_ptr(), places.len(), objects.as_mut_ptr(), objects.len())
    })
}

/// Runs the hypercall of this number by the execution context `caller`, with
/// its words in the interface's order. CALL alone uses the two blocks.
pub fn hypercall(
    number: u32,
    caller: u32,
    [a, b, c, d, e, f]: [u32; 6],
    places: &mut [u32],
    objects: &mut [u32],
    source: &[u32],
    target: &mut [u32],
) -> Result<u32, Refusal> {
    // SAFETY: the tables and the target block are mutable slices, so nothing else
    // reaches their words while the call runs, the source block included. That one
    // is a shared slice, which nobody writes, and the function only reads it. Each
    // pointer is aligned and good for the length of its slice.
    Refusal::read(unsafe {
        rudozhev_hypercall(
            number,
            caller,
            a,
            b,
            c,
            d,
            e,
            f,
            places.as_mut_ptr(),
            places.len(),
            objects.as_mut_ptr(),
            objects.len(),
            source.as_ptr(),
            source.len(),
            target.as_mut_ptr(),
            target.len(),
        )
    })
}

/// Writes the places that descend from a place, rising, at the start of the
/// list, and answers their number.
pub fn census(
    place: u32,
    places: &[u32],
    objects: &[u32],
    list: &mut [u32],
) -> Result<u32, Refusal> {
    // SAFETY: the tables are shared slices, which nobody writes and the function
    // only reads. The list is a mutable slice, so that it overlaps neither of them.
    // Each pointer is aligned and good for the length of its slice.
    Refusal::read(unsafe {
        rudozhev_census(
            place,
            places.as_ptr(),
            places.len(),
            objects.as_ptr(),
            objects.len(),
            list.as_mut_ptr(),
            list.len(),
        )
    })
}

/// The first broken rule of soundness, if any.
pub fn damage(places: &[u32], objects: &[u32]) -> Option<Damage> {
    // SAFETY: both are shared slices, which nobody writes and the function only
    // reads, and each pointer is aligned and good for the length of its slice.
    Damage::read(unsafe {
        rudozhev_damage(places.as_ptr(), places.len(), objects.as_ptr(), objects.len())
    })
}

/// Whether the tables are sound. Faster than finding the broken rule.
pub fn is_sound(places: &[u32], objects: &[u32]) -> bool {
    // SAFETY: both are shared slices, which nobody writes and the function only
    // reads, and each pointer is aligned and good for the length of its slice.
    unsafe { rudozhev_sound(places.as_ptr(), places.len(), objects.as_ptr(), objects.len()) == 1 }
}

/// Makes damaged tables sound by taking away, where that can be done, and answers how many
/// capabilities were lost: null places lose the words that they have left, and outside domain
/// 0 each place is emptied that has no whole chain of parents. Refused as damaged, and no word
/// changes, where a length, a record or domain 0 is wrong.
pub fn repair(places: &mut [u32], objects: &[u32]) -> Result<u32, Refusal> {
    // SAFETY: the place table is a mutable slice, so nothing else reaches its words while
    // the call runs. The object table is a shared slice, which nobody writes and the
    // function only reads. Each pointer is aligned and good for the length of its slice.
    Refusal::read(unsafe {
        rudozhev_repair(places.as_mut_ptr(), places.len(), objects.as_ptr(), objects.len())
    })
}

/// The untyped words of a block, as a part of it; none for a block of another
/// length or whose counts do not fit.
pub fn untyped(block: &[u32]) -> &[u32] {
    // SAFETY: the block is a shared slice, which nobody writes and the function only
    // reads, and the pointer is aligned and good for its length.
    let count = unsafe { rudozhev_untyped(block.as_ptr(), block.len()) } as usize;
    block.get(HEADER_WORDS..HEADER_WORDS + count).unwrap_or_default()
}

/// Reads an information page: answers how many descriptors it has, and writes the fields of
/// its header. Those stay where the page is refused.
pub fn hip_read(page: &[u8], fields: &mut [u32; FIELDS]) -> Result<Counts, PageRefusal> {
    // SAFETY: the page is a shared slice, which nobody writes and the function only reads,
    // and the pointer is good for its length. The fields are a mutable reference, so that
    // they do not overlap it.
    PageRefusal::read(unsafe { rudozhev_hip_read(page.as_ptr(), page.len(), fields) })
}

/// The bytes of the CPU descriptor of an index: flags, thread, core and package. None where
/// the page is refused or has not so many.
pub fn hip_cpu(page: &[u8], index: u32) -> Option<[u8; CPU_BYTES]> {
    // SAFETY: the page is a shared slice, which nobody writes and the function only reads,
    // and the pointer is good for its length.
    let answer = unsafe { rudozhev_hip_cpu(page.as_ptr(), page.len(), index) };
    (answer >> 32 != 0).then_some((answer as u32).to_le_bytes())
}

/// The type of the memory descriptor of an index; its address, size and auxiliary number are
/// written. None where the page is refused or has not so many, and the numbers stay.
pub fn hip_memory(page: &[u8], index: u32, numbers: &mut [u64; 3]) -> Option<i32> {
    // SAFETY: the page is a shared slice, which nobody writes and the function only reads,
    // and the pointer is good for its length. The numbers are a mutable reference, so that
    // they do not overlap it.
    let number = unsafe { rudozhev_hip_memory(page.as_ptr(), page.len(), index, numbers) };
    (number != 0).then_some(number)
}

/// Writes an information page at the start of a buffer and answers its length. The CPU
/// descriptors have four bytes each; bytes at the end that make no whole one are not read.
/// The shortest of the four lists says how many memory descriptors there are. The bytes after
/// the page stay, and all bytes where it is refused.
pub fn hip_write(
    fields: &[u32; FIELDS],
    cpus: &[u8],
    addresses: &[u64],
    sizes: &[u64],
    types: &[i32],
    auxiliaries: &[u32],
    buffer: &mut [u8],
) -> Result<usize, WriteRefusal> {
    // SAFETY: the fields and the lists are shared, so that nobody writes them, and the
    // function only reads them. The buffer is a mutable slice, so that it overlaps none of
    // them. Each pointer is aligned and good for the length of its slice.
    WriteRefusal::read(unsafe {
        rudozhev_hip_write(
            fields,
            cpus.as_ptr(),
            cpus.len(),
            addresses.as_ptr(),
            addresses.len(),
            sizes.as_ptr(),
            sizes.len(),
            types.as_ptr(),
            types.len(),
            auxiliaries.as_ptr(),
            auxiliaries.len(),
            buffer.as_mut_ptr(),
            buffer.len(),
        )
    })
}

#[cfg(test)]
mod tests {
    use super::*;

    #[test]
    fn every_report_is_read_whole() {
        let read = |rule: u64, number: u32| Damage::read(rule << 32 | u64::from(number));
        let found = |rule, at| Some(Damage { rule, at });
        let place = |number| Location::Place(Place::from_number(number).expect("a place"));
        let record = Location::Record(ObjectNumber::new(63).expect("an object number"));
        assert_eq!(read(0, 0), None);
        assert_eq!(read(0, 5), found(0, Location::Unknown(5)));
        assert_eq!(read(1, 0), found(1, Location::Lengths));
        assert_eq!(read(1, 5), found(1, Location::Unknown(5)));
        assert_eq!(read(9, 63), found(9, record));
        assert_eq!(read(10, 64), found(10, place(0)));
        assert_eq!(read(12, 3_135), found(12, place(3_071)));
        assert_eq!(read(12, 3_136), found(12, Location::Unknown(3_136)));
    }
}
