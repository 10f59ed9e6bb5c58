//! Why an event or a sheet came to nothing, as the program says it.

use crate::snippet;
use smocurant::{Place, Status};

/// Whether the line of a wrong value is shown.
#[derive(Clone, Copy, Debug, PartialEq, Eq)]
pub enum ShowLine {
    /// Whoever runs the program has asked for it.
    Always,
    /// Only of events that say that they are public.
    IfPublic,
    /// No word of an event is shown.
    Never,
}

/// What follows the sentence where the place is that of an object: only these have members that they may not be without.
const MISSING: &str = " A member is missing here: a rule has `@type` and `frequency`, an entry of `byDay` has `@type` and `day`.";

/// What is wrong with a file.
pub struct Complaint {
    /// The line and the column, where they are known.
    at: Option<(usize, usize)>,
    reason: String,
    /// Lines that follow the reason.
    more: Vec<String>,
}

impl Complaint {
    /// A complaint about a whole file.
    pub fn new(reason: String) -> Complaint {
        Complaint { at: None, reason, more: Vec::new() }
    }

    /// A text or a sheet is refused as a whole. The hint follows the sentence.
    pub fn refused(status: Status, hint: &str) -> Complaint {
        Complaint::new(format!("refused with {}: {}{hint}", status.number(), status.sentence()))
    }

    /// An event's text is refused; where a value of it is wrong, the complaint says which.
    pub fn of_event(text: &[u8], status: Status, show: ShowLine) -> Complaint {
        let Some(place) = smocurant::locate(text).err().and_then(|fault| fault.place) else { return Complaint::refused(status, "") };
        let is_object = text.get(place.byte) == Some(&b'{');
        let hint = if is_object && status == Status::OtherValue { MISSING } else { "" };
        Complaint { at: Some((place.line, place.column)), more: located(text, &place, show), ..Complaint::refused(status, hint) }
    }

    /// The complaint about a file of this name.
    pub fn told(&self, name: &str) -> String {
        let at = self.at.map_or(String::new(), |(line, column)| format!(":{line}:{column}"));
        let mut told = format!("{name}{at}: {}", self.reason);
        for line in &self.more {
            told += "\n";
            told += line;
        }
        told
    }
}

/// The path of a value, and its line where it may be shown. Without the line, names that the event has chosen are left out, too.
fn located(text: &[u8], place: &Place, show: ShowLine) -> Vec<String> {
    if show == ShowLine::Always || show == ShowLine::IfPublic && place.is_public {
        let [line, carets] = snippet::lines(text, place);
        return vec![format!("  {}", place.path), line, carets];
    }
    let note = "The line is not shown, since it may have words that are not public; --show-line shows it.";
    vec![format!("  {}", place.path.without_override()), format!("  {note}")]
}
