//! The census: which places descend from a place.

use crate::damage::rows_are_sound;
use crate::descent::{descendants, PlaceSet};
use crate::status::{Reply, Status};
use crate::tables::{capability, object_table, place_table, Place};

/// Writes a place's strict descendants, rising, at the start of the list and
/// answers their count.
pub fn census(place: u32, places: &[u32], objects: &[u32], list: &mut [u32]) -> Reply {
    let (Some(places), Some(objects)) = (place_table(places), object_table(objects)) else {
        return Reply::refused(Status::Damaged);
    };
    if !rows_are_sound(places, objects) {
        return Reply::refused(Status::Damaged);
    }
    let Some(place) = Place::from_number(place) else {
        return Reply::refused(Status::BadPar);
    };
    if capability(places, place).is_none() {
        return Reply::refused(Status::BadCap);
    }
    let heirs = descendants(places, &PlaceSet::from_iter([place]), place.space());
    let count = heirs.count();
    if list.len() < count as usize {
        return Reply {
            status: Status::Short,
            answer: count,
        };
    }
    for (word, heir) in list.iter_mut().zip(heirs.iter()) {
        *word = heir.number();
    }
    Reply::success(count)
}
