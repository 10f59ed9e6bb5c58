//! What an occurrence shows beside its dates.

use super::{duration, values, Duration, Event, Override, Patch, Privacy};
use crate::answer::Refusal;
use crate::fault::Faults;
use crate::json::{Object, Text, Value};

/// Length, marks and texts; those of the event, or of one occurrence.
#[derive(Clone, Copy, Debug, PartialEq)]
pub struct Details<'t> {
    /// The length, in its two parts.
    pub duration: Duration,
    /// `freeBusyStatus` is `busy`.
    pub busy: bool,
    /// `showWithoutTime` is true.
    pub all_day: bool,
    /// The title.
    pub title: Option<Text<'t>>,
    /// The description.
    pub description: Option<Text<'t>>,
}

/// The defaults of RFC 8984.
impl Default for Details<'_> {
    fn default() -> Self {
        Details { duration: Duration::default(), busy: true, all_day: false, title: None, description: None }
    }
}

impl<'t> Details<'t> {
    /// The details of an event.
    pub(super) fn read(object: &Object<'t>, faults: &mut Faults) -> Self {
        let default = Details::default();
        Details {
            duration: values::property(object, "duration", default.duration, faults, duration::read),
            busy: values::property(object, "freeBusyStatus", default.busy, faults, read_busy),
            all_day: values::property(object, "showWithoutTime", default.all_day, faults, values::boolean),
            title: values::property(object, "title", default.title, faults, read_text),
            description: values::property(object, "description", default.description, faults, read_text),
        }
    }

    /// The details after a patch.
    fn patched(self, patch: &Patch<'t>) -> Self {
        Details {
            duration: patch.duration.unwrap_or(self.duration),
            busy: patch.busy.unwrap_or(self.busy),
            all_day: patch.all_day.unwrap_or(self.all_day),
            title: patch.title.unwrap_or(self.title),
            description: patch.description.unwrap_or(self.description),
        }
    }
}

/// `free` or `busy`.
pub(super) fn read_busy(value: &Value) -> Result<bool, Refusal> {
    match values::word(value)? {
        b"busy" => Ok(true),
        b"free" => Ok(false),
        _ => Err(Refusal::Word),
    }
}

/// A title or description.
pub(super) fn read_text<'t>(value: &Value<'t>) -> Result<Option<Text<'t>>, Refusal> {
    values::text(value).map(Some)
}

/// One occurrence, patched.
#[derive(Clone, Copy, Debug, PartialEq)]
pub struct Occurrence<'t> {
    /// The recurrence id: the local date-time that the rules give.
    pub id: i64,
    /// The local start: the id, unless a patch moves it.
    pub start: i64,
    /// The rest.
    pub details: Details<'t>,
}

impl<'t> Event<'t> {
    /// What the occurrence of an id is. Texts come out only of public events.
    pub fn occurrence(&self, id: i64) -> Occurrence<'t> {
        let unpatched = Occurrence { id, start: id, details: self.details };
        let mut occurrence = match self.overrides.get(&id) {
            Some(Override::Patch(patch)) => Occurrence { id, start: patch.start.unwrap_or(id), details: self.details.patched(patch) },
            _ => unpatched,
        };
        if self.privacy != Privacy::Public {
            occurrence.details.title = None;
            occurrence.details.description = None;
        }
        occurrence
    }
}
