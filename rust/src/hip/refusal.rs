//! Why an information page is not read or not written.

use core::error::Error;
use core::fmt;

use super::Counts;

/// Why bytes are no page: the first test that fails.
#[derive(Clone, Copy, PartialEq, Eq, Debug, Hash)]
pub enum PageRefusal {
    /// There are fewer bytes than a header has.
    Short,
    /// The first four bytes are others.
    Signature,
    /// The length field is not the number of bytes.
    Length,
    /// Offsets and sizes do not divide the bytes into whole descriptors.
    Layout,
    /// The sum of the 16-bit words is not 0.
    Checksum,
    /// A memory descriptor has a type that is not allowed.
    Type,
    /// A number that the interface does not list, or one with counts beside it; the
    /// proved function never replies so.
    Unknown(u32),
}

impl PageRefusal {
    /// Reads a reply: the refusal in its high half, 0 where the page is accepted, and the
    /// counts in its low half.
    pub(crate) const fn read(reply: u64) -> Result<Counts, PageRefusal> {
        Err(match ((reply >> 32) as u32, reply as u32) {
            (0, counts) => return Ok(Counts { cpus: counts & 0xffff, memories: counts >> 16 }),
            (1, 0) => PageRefusal::Short,
            (2, 0) => PageRefusal::Signature,
            (3, 0) => PageRefusal::Length,
            (4, 0) => PageRefusal::Layout,
            (5, 0) => PageRefusal::Checksum,
            (6, 0) => PageRefusal::Type,
            (number, _) => PageRefusal::Unknown(number),
        })
    }

    /// The interface's number for this refusal.
    pub const fn number(self) -> u32 {
        match self {
            PageRefusal::Short => 1,
            PageRefusal::Signature => 2,
            PageRefusal::Length => 3,
            PageRefusal::Layout => 4,
            PageRefusal::Checksum => 5,
            PageRefusal::Type => 6,
            PageRefusal::Unknown(number) => number,
        }
    }
}

impl fmt::Display for PageRefusal {
    fn fmt(&self, out: &mut fmt::Formatter) -> fmt::Result {
        match self {
            PageRefusal::Short => out.write_str("short: there are fewer bytes than a header has"),
            PageRefusal::Signature => out.write_str("signature: the first four bytes are others"),
            PageRefusal::Length => {
                out.write_str("length: the length field is not the number of bytes")
            }
            PageRefusal::Layout => {
                out.write_str("layout: the bytes are not divided into whole descriptors")
            }
            PageRefusal::Checksum => out.write_str("checksum: the sum of the words is not 0"),
            PageRefusal::Type => out.write_str("type: a type of memory is not allowed"),
            PageRefusal::Unknown(number) => write!(out, "refusal {number}"),
        }
    }
}

impl Error for PageRefusal {}

/// Why a page was not written: the first test that fails. The buffer is as it was.
#[derive(Clone, Copy, PartialEq, Eq, Debug, Hash)]
pub enum WriteRefusal {
    /// A memory descriptor has a type that is not allowed; [`super::write()`] is given no such
    /// type.
    Type,
    /// The page would be longer than [`super::GREATEST_LENGTH`].
    Large,
    /// The buffer is shorter than the page.
    Room,
    /// A number that the interface does not list, or one with a length beside it; the
    /// proved function never replies so.
    Unknown(u32),
}

impl WriteRefusal {
    /// Reads a reply: the refusal in its high half, 0 where the page is written, and its
    /// length in the low half.
    pub(crate) const fn read(reply: u64) -> Result<usize, WriteRefusal> {
        Err(match ((reply >> 32) as u32, reply as u32) {
            (0, length) => return Ok(length as usize),
            (6, 0) => WriteRefusal::Type,
            (7, 0) => WriteRefusal::Large,
            (8, 0) => WriteRefusal::Room,
            (number, _) => WriteRefusal::Unknown(number),
        })
    }

    /// The interface's number for this refusal.
    pub const fn number(self) -> u32 {
        match self {
            WriteRefusal::Type => 6,
            WriteRefusal::Large => 7,
            WriteRefusal::Room => 8,
            WriteRefusal::Unknown(number) => number,
        }
    }
}

impl fmt::Display for WriteRefusal {
    fn fmt(&self, out: &mut fmt::Formatter) -> fmt::Result {
        match self {
            WriteRefusal::Type => out.write_str("type: a type of memory is not allowed"),
            WriteRefusal::Large => out.write_str("large: the page would be too long"),
            WriteRefusal::Room => out.write_str("room: the buffer is shorter than the page"),
            WriteRefusal::Unknown(number) => write!(out, "refusal {number}"),
        }
    }
}

impl Error for WriteRefusal {}

#[cfg(test)]
mod tests {
    use super::*;

    /// A reply with this number in its high half and this in its low half.
    fn reply(refusal: u32, answer: u32) -> u64 {
        u64::from(refusal) << 32 | u64::from(answer)
    }

    #[test]
    fn every_refusal_of_the_reader_has_its_number() {
        let counts = Counts { cpus: 16_369, memories: 2_728 };
        assert_eq!(PageRefusal::read(reply(0, 2_728 << 16 | 16_369)), Ok(counts));
        for number in 1..20 {
            let refusal = PageRefusal::read(reply(number, 0)).expect_err("a refusal");
            assert_eq!(refusal.number(), number);
            let listed = (1..=6).contains(&number);
            assert_eq!(refusal == PageRefusal::Unknown(number), !listed);
            let with_counts = PageRefusal::read(reply(number, 5));
            assert_eq!(with_counts, Err(PageRefusal::Unknown(number)));
        }
    }

    #[test]
    fn every_refusal_of_the_writer_has_its_number() {
        assert_eq!(WriteRefusal::read(reply(0, 65_532)), Ok(65_532));
        for number in 1..20 {
            let refusal = WriteRefusal::read(reply(number, 0)).expect_err("a refusal");
            assert_eq!(refusal.number(), number);
            let listed = (6..=8).contains(&number);
            assert_eq!(refusal == WriteRefusal::Unknown(number), !listed);
            let with_length = WriteRefusal::read(reply(number, 56));
            assert_eq!(with_length, Err(WriteRefusal::Unknown(number)));
        }
    }
}
