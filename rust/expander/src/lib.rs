//! An independent expander of JSCalendar events (RFC 8984).
//!
//! It is written from the papers alone and shares no line with the proved library, so that a comparison of the two finds what one of them
//! read otherwise. It favours the plain form over the fast one: a text becomes a tree, the tree an event, the event a sorted list of dates.
//!
//! [`expand`], [`title`], [`description`], [`locate`], [`weeks`], [`read`], [`record`] and [`records`] mirror the exported functions of the
//! library, and answer with its numbers. [`Event::read`], [`Event::ids`] and [`Event::occurrence`] are the steps of the first three,
//! [`Event::judge`] that of the fourth; [`Sheet::read`] reads a sheet back for the others.
//!
//! ```
//! let text = br#"{"@type": "Event", "uid": "1", "updated": "2024-01-01T00:00:00Z", "start": "2024-01-31T09:00:00", "duration": "PT1H",
//!     "title": "Stocktaking", "recurrenceRules": [{"@type": "RecurrenceRule", "frequency": "monthly", "count": 3}]}"#;
//! let mut buffer = [0; 3 * 28 + 12];
//! let window = (1_704_067_200, 1_735_689_600); // the year 2024
//! assert_eq!(expander::expand(text, b"", 0, &[], &[], window.0, window.1, &mut buffer), (0, 96));
//! ```

mod answer;
mod calls;
mod civil;
mod event;
mod fault;
pub mod json;
mod recurrence;
mod sheet;
mod sheet_calls;
mod table;
mod times;
mod weeks;
mod window;
mod zone;

pub use answer::Refusal;
pub use calls::{description, expand, locate, title};
pub use event::{Details, Duration, Event, Occurrence, Privacy};
pub use fault::Fault;
pub use sheet::{Sheet, SheetRecord};
pub use sheet_calls::{read, record, records};
pub use weeks::weeks;
pub use window::Window;
pub use zone::Zone;
