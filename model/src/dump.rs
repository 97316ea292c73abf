//! Dumps of both tables as bytes, and what is printed of one: a line that names
//! the damage, then the repaired dump. Words are little-endian.

use crate::damage::{damage, Damage, Location};
use crate::layout::{OBJECT_WORDS, PLACE_WORDS};
use crate::repair::repaired;

/// Bytes of a word.
pub const WORD_BYTES: usize = 4;

/// Where the object table begins.
pub const OBJECTS_START: usize = PLACE_WORDS * WORD_BYTES;

/// Bytes of a dump.
pub const BYTES: usize = OBJECTS_START + OBJECT_WORDS * WORD_BYTES;

/// Both tables, of which a dump is made.
#[derive(Clone, PartialEq, Eq, Debug)]
pub struct Dump {
    pub places: Vec<u32>,
    pub objects: Vec<u32>,
}

/// Why bytes are no dump.
#[derive(Clone, Copy, PartialEq, Eq, Debug)]
pub enum WrongLength {
    Short,
    Long,
}

impl Dump {
    /// Reads the tables of a dump.
    pub fn read(bytes: &[u8]) -> Result<Dump, WrongLength> {
        match bytes.len() {
            ..BYTES => Err(WrongLength::Short),
            BYTES => {
                let (places, objects) = bytes.split_at(OBJECTS_START);
                Ok(Dump {
                    places: words(places),
                    objects: words(objects),
                })
            }
            _ => Err(WrongLength::Long),
        }
    }

    /// The bytes of both tables.
    pub fn bytes(&self) -> Vec<u8> {
        let words = self.places.iter().chain(&self.objects);
        words.flat_map(|word| word.to_le_bytes()).collect()
    }

    /// The same tables after repair.
    pub fn repaired(&self) -> Dump {
        Dump {
            places: repaired(&self.places, &self.objects),
            objects: self.objects.clone(),
        }
    }
}

fn words(bytes: &[u8]) -> Vec<u32> {
    let (words, _) = bytes.as_chunks::<WORD_BYTES>();
    words.iter().map(|&word| u32::from_le_bytes(word)).collect()
}

/// The line that is printed of bytes, with its newline.
pub fn line(bytes: &[u8]) -> String {
    match Dump::read(bytes) {
        Err(WrongLength::Short) => "short\n".to_string(),
        Err(WrongLength::Long) => "long\n".to_string(),
        Ok(Dump { places, objects }) => match damage(&places, &objects) {
            None => "sound\n".to_string(),
            Some(Damage { rule, at }) => match at {
                Location::Record(record) => format!("{rule} record {record}\n"),
                Location::Place(place) => format!("{rule} place {place}\n"),
                Location::Nowhere => unreachable!("a dump has tables of the right lengths"),
            },
        },
    }
}

/// What the program inspect writes for a dump: the line, and after it the repaired dump,
/// if the bytes are a dump.
pub fn output(bytes: &[u8]) -> Vec<u8> {
    let mut output = line(bytes).into_bytes();
    if let Ok(dump) = Dump::read(bytes) {
        output.extend(dump.repaired().bytes());
    }
    output
}

/// Writes the output at the start of the buffer, if it has room for all of it, and answers
/// how many bytes the whole output has.
pub fn report(bytes: &[u8], buffer: &mut [u8]) -> usize {
    let output = output(bytes);
    if let Some(start) = buffer.get_mut(..output.len()) {
        start.copy_from_slice(&output);
    }
    output.len()
}
