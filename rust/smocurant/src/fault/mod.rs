//! What is wrong with an event's text, and where.

mod path;
mod place;
mod walk;

pub use path::{MemberPath, Step};
pub use place::Place;

use crate::calls;
use crate::raw;
use crate::status::Status;
use std::fmt;

/// Why a text is refused; for a wrong value also where it stands.
#[derive(Clone, Debug, PartialEq, Eq)]
pub struct Fault {
    /// What every other call on this text is refused with.
    pub status: Status,
    /// Where the first wrong value stands, for [`Status::WrongType`] to [`Status::OtherValue`].
    pub place: Option<Place>,
}

/// Judges an event's text alone, and finds the value that is wrong.
///
/// The place is for those whose text it is: it tells of words that a planner must not see.
///
/// ```
/// use smocurant::{locate, Status};
///
/// let text = br#"{"@type": "Event", "uid": "1", "updated": "2024-01-01T00:00:00Z", "start": "2024-01-31T00:00:00",
///     "recurrenceRules": [{"@type": "RecurrenceRule", "frequency": "monthly", "until": "2024-06-31T00:00:00"}]}"#;
/// let fault = locate(text).unwrap_err();
/// assert_eq!(fault.status, Status::DateTime);
/// let place = fault.place.unwrap();
/// assert_eq!((place.line, place.column), (2, 86));
/// assert_eq!(place.path.to_string(), "recurrenceRules[0].until");
/// assert_eq!(&text[place.bytes()], br#""2024-06-31T00:00:00""#);
/// ```
pub fn locate(text: &[u8]) -> Result<(), Fault> {
    let (answer, byte) = raw::locate(text);
    calls::done(answer).map_err(|status| {
        let place = status.is_wrong_value().then(|| Place::find(text, calls::place(byte)));
        Fault { status, place }
    })
}

/// As errors end up in logs, the name of an override is shown only of public events.
impl fmt::Display for Fault {
    fn fmt(&self, out: &mut fmt::Formatter) -> fmt::Result {
        let Some(place) = &self.place else { return self.status.fmt(out) };
        let path = if place.is_public { place.path.to_string() } else { place.path.without_override() };
        write!(out, "line {}, column {}, {path}: {}", place.line, place.column, self.status)
    }
}

impl std::error::Error for Fault {}

#[cfg(test)]
mod tests {
    use super::*;

    #[test]
    fn shown() {
        let shown = |members: &str| locate(generator::examples::event("2024-01-01T00:00:00", members).as_bytes()).unwrap_err().to_string();
        let overrides = r#", "recurrenceOverrides": {"Grey": {}}"#;
        let sentence = Status::DateTime;
        assert_eq!(shown(overrides), format!("line 1, column 123, recurrenceOverrides[\"Grey\"]: {sentence}"));
        let private = format!(r#"{overrides}, "privacy": "private""#);
        assert_eq!(shown(&private), format!("line 1, column 123, recurrenceOverrides[...]: {sentence}"));
        assert_eq!(shown(r#", "recurrenceId": 1"#), "The event uses a form that is not supported. (answer 8)");
    }

    #[test]
    fn accepted() {
        assert_eq!(locate(generator::examples::event("2024-01-01T00:00:00", "").as_bytes()), Ok(()));
    }
}
