//! Sets of places, and the strict descendants of a set.

use crate::layout::{DOMAINS, PLACES};
use crate::tables::{parent, Domain, Place, PlaceTable, Selector, Space};

const SET_WORDS: usize = PLACES.div_ceil(64);

/// A set of places, one bit each.
#[derive(Clone, PartialEq, Eq)]
pub struct PlaceSet([u64; SET_WORDS]);

impl PlaceSet {
    pub const EMPTY: PlaceSet = PlaceSet([0; SET_WORDS]);

    const fn position(place: Place) -> (usize, u64) {
        let number = place.number();
        ((number / 64) as usize, 1 << (number % 64))
    }

    pub fn insert(&mut self, place: Place) {
        let (word, bit) = PlaceSet::position(place);
        self.0[word] |= bit;
    }

    pub fn contains(&self, place: Place) -> bool {
        let (word, bit) = PlaceSet::position(place);
        self.0[word] & bit != 0
    }

    pub fn count(&self) -> u32 {
        self.0.iter().map(|word| word.count_ones()).sum()
    }

    /// The places of the set, rising by number.
    pub fn iter(&self) -> impl Iterator<Item = Place> + '_ {
        self.0.iter().enumerate().flat_map(|(index, &word)| {
            let bits = std::iter::successors(Some(word), |bits| Some(bits & bits.wrapping_sub(1)));
            bits.take_while(|&bits| bits != 0).filter_map(move |bits| {
                Place::from_number(index as u32 * 64 + bits.trailing_zeros())
            })
        })
    }
}

impl FromIterator<Place> for PlaceSet {
    fn from_iter<I: IntoIterator<Item = Place>>(places: I) -> PlaceSet {
        let mut set = PlaceSet::EMPTY;
        places.into_iter().for_each(|place| set.insert(place));
        set
    }
}

/// The strict descendants, in a sound table, of the places of a set in one space.
///
/// Each place's chain of parents is followed up to the first place whose
/// answer is known, and the answer is then kept for the whole chain, so every
/// place is walked over at most twice.
pub fn descendants(places: &PlaceTable, origins: &PlaceSet, space: Space) -> PlaceSet {
    let mut descendants = PlaceSet::EMPTY;
    let mut others = PlaceSet::EMPTY;
    // Domain 0's places have no parent.
    for domain in (1..DOMAINS).filter_map(Domain::new) {
        for selector in 0..space.selectors() {
            let place = Place::new(domain, space, Selector::wrapped(selector, space));
            let Some(first) = parent(places, place) else {
                continue;
            };
            let mut above = Some(first);
            let descends = loop {
                match above {
                    Some(at) if origins.contains(at) || descendants.contains(at) => break true,
                    Some(at) if !others.contains(at) => above = parent(places, at),
                    _ => break false,
                }
            };
            let answer = if descends {
                &mut descendants
            } else {
                &mut others
            };
            answer.insert(place);
            let mut at = first;
            while Some(at) != above {
                answer.insert(at);
                match parent(places, at) {
                    Some(next) => at = next,
                    None => break,
                }
            }
        }
    }
    descendants
}
