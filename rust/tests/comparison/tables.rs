//! Both tables beside the model's, and what the model says of them as the crate gives it.

use model::Status;
use rudozhev::{Damage, Location, ObjectNumber, Place, Refusal};

use super::same::{same_list, Difference};

/// Both tables, of any length and content.
#[derive(Clone, PartialEq, Eq)]
pub struct Words {
    pub places: Vec<u32>,
    pub objects: Vec<u32>,
}

pub fn same_tables(proved: &Words, model: &Words) -> Result<(), Difference> {
    same_list("the place table", &proved.places, &model.places)?;
    same_list("the object table", &proved.objects, &model.objects)
}

/// The model's reply as the crate gives it.
pub fn expected(reply: model::Reply) -> Result<u32, Refusal> {
    Err(match reply.status {
        Status::Success => return Ok(reply.answer),
        Status::ComTim => Refusal::ComTim,
        Status::BadHyp => Refusal::BadHyp,
        Status::BadCap => Refusal::BadCap,
        Status::BadPar => Refusal::BadPar,
        Status::BadCpu => Refusal::BadCpu,
        Status::NoRoom => Refusal::NoRoom,
        Status::Damaged => Refusal::Damaged,
        Status::BadCaller => Refusal::BadCaller,
        Status::Short => Refusal::Short { needed: reply.answer },
    })
}

/// The model's report as the crate gives it.
pub fn expected_damage(damage: model::Damage) -> Damage {
    let at = match damage.at {
        model::Location::Nowhere => Location::Lengths,
        model::Location::Record(number) => {
            Location::Record(ObjectNumber::new(number).expect("a record's number"))
        }
        model::Location::Place(number) => {
            Location::Place(Place::from_number(number).expect("a place's number"))
        }
    };
    Damage { rule: damage.rule, at }
}
