//! Answer 4: "two equal member names in one object, or a backslash in any member name".

use super::{Kind, Object, Value};
use crate::answer::Refusal;
use std::collections::HashSet;

/// Judges the names of every object in a value, read or not.
pub fn judge(value: &Value) -> Result<(), Refusal> {
    match &value.kind {
        Kind::Array(elements) => elements.iter().try_for_each(judge),
        Kind::Object(object) => {
            judge_own(object)?;
            object.members.iter().try_for_each(|(_, value)| judge(value))
        }
        _ => Ok(()),
    }
}

/// Without escapes, names are equal when their bytes are.
fn judge_own(object: &Object) -> Result<(), Refusal> {
    let mut seen = HashSet::with_capacity(object.members.len());
    for (name, _) in &object.members {
        if name.has_backslash() || !seen.insert(name.raw) {
            return Err(Refusal::Names);
        }
    }
    Ok(())
}
