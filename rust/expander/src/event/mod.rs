//! The event of a text: its properties, rules and overrides, with the answers 5, 20 to 26, and 7 to 9.

mod date_time;
mod details;
mod duration;
mod overrides;
mod rule;
mod values;

pub use details::{Details, Occurrence};
pub use duration::Duration;
pub use overrides::{Override, Patch};
pub use rule::{End, Frequency, NthDay, Rule};

use crate::answer::Refusal;
use crate::fault::{Fault, Faults};
use crate::json::{self, Kind, Object, Value};
use std::collections::BTreeMap;

/// Who may learn what of an event.
#[derive(Clone, Copy, Debug, Default, PartialEq, Eq, PartialOrd, Ord)]
pub enum Privacy {
    /// Times and texts.
    #[default]
    Public,
    /// Times without texts. Unknown words count as this.
    Private,
    /// Nothing.
    Secret,
}

/// An accepted event. Date-times are local seconds from 1970-01-01T00:00:00.
#[derive(Debug)]
pub struct Event<'t> {
    pub(crate) start: i64,
    pub(crate) zone: Option<&'t [u8]>,
    pub(crate) privacy: Privacy,
    pub(crate) details: Details<'t>,
    pub(crate) rules: Vec<Rule>,
    pub(crate) excluded_rules: Vec<Rule>,
    pub(crate) overrides: BTreeMap<i64, Override<'t>>,
}

impl<'t> Event<'t> {
    /// Reads an event; refuses with 1 to 5, 20 to 26, and 7 to 9.
    pub fn read(text: &'t [u8]) -> Result<Event<'t>, Refusal> {
        Event::judge(text).map_err(|fault| fault.refusal)
    }

    /// Reads an event, or says what is wrong with it and where.
    pub fn judge(text: &'t [u8]) -> Result<Event<'t>, Fault> {
        match json::parse(text).map_err(Fault::of_text)?.kind {
            Kind::Object(object) if is_event(&object) => {
                let mut faults = Faults::default();
                let event = read_properties(&object, &mut faults);
                faults.settle(event)
            }
            _ => Err(Fault::of_text(Refusal::NotEvent)),
        }
    }

    /// Who may learn what.
    pub fn privacy(&self) -> Privacy {
        self.privacy
    }

    /// The zone's name; none for a floating event.
    pub fn zone(&self) -> Option<&'t [u8]> {
        self.zone
    }

    /// The local start.
    pub fn start(&self) -> i64 {
        self.start
    }
}

/// What answer 5 asks; `@type` is compared byte by byte, so an escape in it is no `Event`.
fn is_event(object: &Object) -> bool {
    let is_typed = object.get("@type").is_some_and(|value| matches!(value.kind, Kind::String(name) if name.raw == b"Event"));
    is_typed && ["uid", "updated", "start"].iter().all(|name| object.get(name).is_some())
}

/// The properties of an object that has the mandatory ones.
fn read_properties<'t>(object: &Object<'t>, faults: &mut Faults) -> Event<'t> {
    values::property(object, "uid", &b""[..], faults, values::name);
    values::property(object, "updated", (), faults, date_time::updated);
    if let Some(value) = object.get("recurrenceId") {
        faults.note(value.place, Refusal::Unsupported);
    }
    Event {
        start: values::property(object, "start", 0, faults, date_time::occurrence),
        zone: values::property(object, "timeZone", None, faults, read_zone),
        privacy: values::property(object, "privacy", Privacy::Public, faults, read_privacy),
        details: Details::read(object, faults),
        rules: object.get("recurrenceRules").map_or_else(Vec::new, |value| rule::read_list(value, faults)),
        excluded_rules: object.get("excludedRecurrenceRules").map_or_else(Vec::new, |value| rule::read_list(value, faults)),
        overrides: object.get("recurrenceOverrides").map_or_else(BTreeMap::new, |value| overrides::read(value, faults)),
    }
}

/// "absent or null is floating; else at least one byte"
fn read_zone<'t>(value: &Value<'t>) -> Result<Option<&'t [u8]>, Refusal> {
    match value.kind {
        Kind::Null => Ok(None),
        _ => values::name(value).map(Some),
    }
}

/// "any other string counts as private"
fn read_privacy(value: &Value) -> Result<Privacy, Refusal> {
    Ok(match values::word(value)? {
        b"public" => Privacy::Public,
        b"secret" => Privacy::Secret,
        _ => Privacy::Private,
    })
}
