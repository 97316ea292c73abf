//! Whether what the proved functions and the model give is the same.

use std::fmt::Debug;

/// What the proved functions and the model do not agree on.
pub type Difference = String;

pub fn same<T: PartialEq + Debug>(what: &str, proved: T, model: T) -> Result<(), Difference> {
    if proved == model {
        return Ok(());
    }
    let text = |value: T| {
        let mut text = format!("{value:?}");
        text.truncate(200);
        text
    };
    Err(format!("{what}: proved {}, model {}", text(proved), text(model)))
}

/// Whether lists have the same words or bytes; else the first that differs.
pub fn same_list<T: Copy + PartialEq + Debug>(
    what: &str,
    proved: &[T],
    model: &[T],
) -> Result<(), Difference> {
    if proved == model {
        return Ok(());
    }
    same(&format!("length of {what}"), proved.len(), model.len())?;
    let item = (0..proved.len()).find(|&item| proved[item] != model[item]);
    item.map_or(Ok(()), |item| same(&format!("item {item} of {what}"), proved[item], model[item]))
}
