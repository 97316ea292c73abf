//! Repair of found tables: a place that cannot be accounted for is emptied, and
//! nothing is given.

use crate::damage::{is_live_and_keeps_its_rules, is_sound};
use crate::descent::PlaceSet;
use crate::layout::{PLACES, PLACE_WIDTH};
use crate::status::{Reply, Status};
use crate::tables::{
    object_table, parent, place_table, Domain, ObjectTable, Place, PlaceTable, NULL_PLACE,
};

/// Makes the place table the repaired one, if that makes the tables sound, and answers
/// how many capabilities were lost.
pub fn repair(places: &mut [u32], objects: &[u32]) -> Reply {
    let repaired = repaired(places, objects);
    if !is_sound(&repaired, objects) {
        return Reply::refused(Status::Damaged);
    }
    let lost = live_places(places) - live_places(&repaired);
    places.copy_from_slice(&repaired);
    Reply::success(lost)
}

/// The place table after repair, sound or not; of wrong lengths the table as it is.
pub fn repaired(places: &[u32], objects: &[u32]) -> Vec<u32> {
    let mut words = places.to_vec();
    if let (Some(places), Some(objects)) = (place_table(places), object_table(objects)) {
        let whole = whole_chains(places, objects);
        for (place, row) in all_places().zip(words.as_chunks_mut().0) {
            let is_live = row[1] != 0;
            let stays = is_live && (place.domain() == Domain::HYPERVISOR || whole.contains(place));
            if !stays {
                *row = NULL_PLACE;
            }
        }
    }
    words
}

/// The live places whose chains are whole.
///
/// The parent of a place that keeps rule 11 is less deep by 1. So, taken by
/// rising depth, each such place comes after its parent, and no chain is walked.
fn whole_chains(places: &PlaceTable, objects: &ObjectTable) -> PlaceSet {
    let mut good: Vec<Place> = all_places()
        .filter(|&place| is_live_and_keeps_its_rules(places, objects, place))
        .collect();
    good.sort_by_key(|place| places[place.number() as usize][3]);
    let mut whole = PlaceSet::EMPTY;
    for place in good {
        if parent(places, place).is_none_or(|parent| whole.contains(parent)) {
            whole.insert(place);
        }
    }
    whole
}

fn all_places() -> impl Iterator<Item = Place> {
    (0..PLACES as u32).filter_map(Place::from_number)
}

/// How many places have permissions.
fn live_places(places: &[u32]) -> u32 {
    let (rows, _) = places.as_chunks::<PLACE_WIDTH>();
    rows.iter().filter(|row| row[1] != 0).count() as u32
}
