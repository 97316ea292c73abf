//! Both tables, with typed calls on them.

use crate::descriptor::Descriptor;
use crate::hypercall::Hypercall;
use crate::message::Block;
use crate::numbers::{ObjectNumber, ObjectSelector, Place};
use crate::refusal::Refusal;
use crate::words::{
    self, Damage, CALL, DUMP_BYTES, LOOKUP, OBJECT_WORDS, PLACE_WIDTH, PLACE_WORDS,
};

/// The place table and the object table.
#[derive(Clone, PartialEq, Eq, Debug)]
pub struct Tables {
    places: [u32; PLACE_WORDS],
    objects: [u32; OBJECT_WORDS],
}

/// What a live place holds.
#[derive(Clone, Copy, PartialEq, Eq, Debug)]
pub struct Capability {
    /// The page, port or object number.
    pub resource: u32,
    /// The permissions, never 0.
    pub permissions: u32,
    /// The place that it was delegated from.
    pub parent: Option<Place>,
    /// How many places it came through.
    pub depth: u32,
}

impl Tables {
    /// Tables of zero words, which are damaged until they are booted.
    pub const fn zeroed() -> Tables {
        Tables::from_words([0; PLACE_WORDS], [0; OBJECT_WORDS])
    }

    /// Tables as they are when the controller starts.
    pub fn booted() -> Tables {
        let mut tables = Tables::zeroed();
        tables.boot();
        tables
    }

    /// Tables of these words, sound or not.
    pub const fn from_words(places: [u32; PLACE_WORDS], objects: [u32; OBJECT_WORDS]) -> Tables {
        Tables { places, objects }
    }

    /// The tables of a dump, sound or not.
    pub fn from_dump(bytes: &[u8; DUMP_BYTES]) -> Tables {
        let mut tables = Tables::zeroed();
        let words = tables.places.iter_mut().chain(&mut tables.objects);
        for (word, bytes) in words.zip(bytes.chunks_exact(size_of::<u32>())) {
            *word = bytes.iter().rev().fold(0, |above, &byte| above << 8 | u32::from(byte));
        }
        tables
    }

    /// Writes the dump of the tables, of which the program `inspect` tells what is broken.
    pub fn dump(&self, bytes: &mut [u8; DUMP_BYTES]) {
        let words = self.places.iter().chain(&self.objects);
        for (bytes, word) in bytes.chunks_exact_mut(size_of::<u32>()).zip(words) {
            bytes.copy_from_slice(&word.to_le_bytes());
        }
    }

    /// The words of the place table.
    pub const fn place_words(&self) -> &[u32; PLACE_WORDS] {
        &self.places
    }

    /// The words of the object table.
    pub const fn object_words(&self) -> &[u32; OBJECT_WORDS] {
        &self.objects
    }

    /// Makes the tables what they are when the controller starts.
    pub fn boot(&mut self) {
        let reply = words::boot(&mut self.places, &mut self.objects);
        debug_assert_eq!(reply, Ok(0), "the lengths are right");
    }

    /// Runs a hypercall by an execution context.
    pub fn hypercall(&mut self, caller: ObjectNumber, call: Hypercall) -> Result<(), Refusal> {
        let (number, arguments) = call.words();
        self.run(number, caller, arguments).map(drop)
    }

    /// The largest range around the base of a descriptor, with its permissions as
    /// the mask; none where the place there is null.
    pub fn lookup(
        &mut self,
        caller: ObjectNumber,
        at: Descriptor,
    ) -> Result<Option<Descriptor>, Refusal> {
        let found = Descriptor::from_word(self.run(LOOKUP, caller, [at.word(), 0, 0, 0, 0, 0])?);
        Ok(Some(found).filter(|&found| found != Descriptor::NULL))
    }

    /// Runs a hypercall without message blocks.
    fn run(
        &mut self,
        number: u32,
        caller: ObjectNumber,
        arguments: [u32; 6],
    ) -> Result<u32, Refusal> {
        let (places, objects) = (&mut self.places, &mut self.objects);
        words::hypercall(number, caller.number(), arguments, places, objects, &[], &mut [])
    }

    /// Sends a message through a portal; answers how many places it filled.
    pub fn call(
        &mut self,
        caller: ObjectNumber,
        portal: ObjectSelector,
        source: &Block,
        target: &mut Block,
    ) -> Result<u32, Refusal> {
        let arguments = [portal.number(), 0, 0, 0, 0, 0];
        let (places, objects) = (&mut self.places, &mut self.objects);
        let (source, target) = (source.words(), target.words_mut());
        words::hypercall(CALL, caller.number(), arguments, places, objects, source, target)
    }

    /// The places whose capability came from a place, rising. The list needs a
    /// word for each.
    pub fn census<'a>(
        &self,
        place: Place,
        list: &'a mut [u32],
    ) -> Result<impl Iterator<Item = Place> + 'a, Refusal> {
        let count = words::census(place.number(), &self.places, &self.objects, list)? as usize;
        Ok(list.iter().take(count).copied().filter_map(Place::from_number))
    }

    /// Whether no rule of soundness is broken, as in tables that only calls changed since boot.
    pub fn is_sound(&self) -> bool {
        words::is_sound(&self.places, &self.objects)
    }

    /// The first broken rule of soundness; none in sound tables.
    pub fn damage(&self) -> Option<Damage> {
        words::damage(&self.places, &self.objects)
    }

    /// Makes damaged tables sound by taking away, where that can be done, and answers how
    /// many capabilities were lost. Outside domain 0 each place is emptied that has no whole
    /// chain of parents; null places lose the words that they have left. Refused as damaged,
    /// and no word changes, where a record or domain 0 is wrong.
    ///
    /// The tables are sound afterwards, but need not be what they were before the damage.
    ///
    /// ```
    /// use rudozhev::{Descriptor, Domain, ObjectNumber, Place, Refusal, Selector, Space, Tables};
    ///
    /// # fn main() -> Result<(), Refusal> {
    /// // Something else than a call writes the parent word of the root's page 62.
    /// let utcb = Place::new(Domain::ROOT, Selector::ROOT_UTCB_PAGE);
    /// let booted = Tables::booted();
    /// let mut places = *booted.place_words();
    /// places[4 * utcb.number() as usize + 2] = 9_000;
    /// let mut tables = Tables::from_words(places, *booted.object_words());
    /// let page = Descriptor::at(Selector::ROOT_UTCB_PAGE, 0).unwrap();
    /// assert_eq!(tables.lookup(ObjectNumber::ROOT_EC, page), Err(Refusal::Damaged));
    ///
    /// assert_eq!(tables.repair()?, 1);
    /// assert_eq!(tables.lookup(ObjectNumber::ROOT_EC, page)?, None);
    /// # Ok(())
    /// # }
    /// ```
    pub fn repair(&mut self) -> Result<u32, Refusal> {
        words::repair(&mut self.places, &self.objects)
    }

    /// What a place holds, as its words say; none where it is null.
    pub fn capability(&self, place: Place) -> Option<Capability> {
        let start = place.number() as usize * PLACE_WIDTH;
        match self.places[start..start + PLACE_WIDTH] {
            [resource, permissions, parent, depth] if permissions != 0 => Some(Capability {
                resource,
                permissions,
                parent: parent.checked_sub(1).and_then(Place::from_number),
                depth,
            }),
            _ => None,
        }
    }
}
