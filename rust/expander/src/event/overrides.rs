//! `recurrenceOverrides`: "an object of LocalDateTime names and patch objects".

use super::details::{read_busy, read_text};
use super::{date_time, duration, values, Duration};
use crate::answer::Refusal;
use crate::fault::Faults;
use crate::json::{Kind, Object, Text, Value};
use std::collections::BTreeMap;

/// "over [..] 256 overrides" answers 9.
const MOST_OVERRIDES: usize = 256;

/// What is said of one date.
#[derive(Debug)]
pub enum Override<'t> {
    /// It is no occurrence.
    Excluded,
    /// It is one, changed in some points.
    Patch(Patch<'t>),
}

impl Default for Override<'_> {
    fn default() -> Self {
        Override::Patch(Patch::default())
    }
}

/// The changes of one occurrence. `None` keeps the event's value; null in the text gives the default or no text.
#[derive(Debug, Default)]
pub struct Patch<'t> {
    pub start: Option<i64>,
    pub duration: Option<Duration>,
    pub busy: Option<bool>,
    pub all_day: Option<bool>,
    pub title: Option<Option<Text<'t>>>,
    pub description: Option<Option<Text<'t>>>,
}

/// All overrides by their dates. Two names cannot have the same date: a date-time has one spelling.
pub fn read<'t>(value: &Value<'t>, faults: &mut Faults) -> BTreeMap<i64, Override<'t>> {
    let Some(object) = values::object(value, faults) else { return BTreeMap::new() };
    faults.note_if(object.members.len() > MOST_OVERRIDES, object.place, Refusal::TooMany);
    let read = |(name, patch): &(Text<'t>, Value<'t>)| {
        // "an override name being a value too"
        let id = faults.keep(name.place(), date_time::occurrence_name(name.raw), 0);
        (id, read_override(patch, faults))
    };
    object.members.iter().map(read).collect()
}

fn read_override<'t>(value: &Value<'t>, faults: &mut Faults) -> Override<'t> {
    let Some(object) = values::object(value, faults) else { return Override::default() };
    let excluded = patched(object, "excluded", false, faults, values::boolean) == Some(true);
    faults.note_if(excluded && object.members.len() > 1, object.place, Refusal::Conflict);
    for (name, _) in &object.members {
        faults.note_if(is_unsupported(name.raw), name.place(), Refusal::Unsupported);
    }
    let patch = read_patch(object, faults);
    if excluded {
        Override::Excluded
    } else {
        Override::Patch(patch)
    }
}

/// "A patch of `timeZone`, or any name with `/` or `~`, answers 8."
fn is_unsupported(name: &[u8]) -> bool {
    name == b"timeZone" || name.contains(&b'/') || name.contains(&b'~')
}

fn read_patch<'t>(object: &Object<'t>, faults: &mut Faults) -> Patch<'t> {
    Patch {
        // Null is no start: it has the wrong type, as every value that is no string.
        start: values::property(object, "start", None, faults, |value| date_time::occurrence(value).map(Some)),
        duration: patched(object, "duration", Duration::default(), faults, duration::read),
        busy: patched(object, "freeBusyStatus", true, faults, read_busy),
        all_day: patched(object, "showWithoutTime", false, faults, values::boolean),
        title: patched(object, "title", None, faults, read_text),
        description: patched(object, "description", None, faults, read_text),
    }
}

/// A patch of one property: nothing where it is absent, the default where it is null.
fn patched<'t, T>(
    object: &Object<'t>,
    name: &str,
    default: T,
    faults: &mut Faults,
    read: impl FnOnce(&Value<'t>) -> Result<T, Refusal>,
) -> Option<T> {
    let read = |value: &Value<'t>| match value.kind {
        Kind::Null => Ok(Some(default)),
        _ => read(value).map(Some),
    };
    values::property(object, name, None, faults, read)
}
