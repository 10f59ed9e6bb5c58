//! Every occurrence of a JSCalendar event (RFC 8984) in a window, to the second, as a table of times; texts only of public events, and
//! nothing of a secret one.
//!
//! The work is done by a library that is proved to meet its contract. This crate links its archive and gives it safe types: a [`Window`], a
//! [`ZoneTable`], a [`Table`] of [`Record`]s, [`Text`]s that are parts of the caller's own, and a [`Status`] for each refusal. [`locate`] finds
//! the value that was wrong. A table is kept and sent as bytes, the sheet; [`Table::read`] takes such bytes back and has the library judge them.
//! [`weeks`] holds a log of uploads beside tables and says which weeks were reported, shut or missing.
//!
//! ```
//! use smocurant::{expand_to_vec, title, Status, Window, ZoneTable};
//!
//! let event = br#"{"@type": "Event", "uid": "1", "updated": "2024-01-01T00:00:00Z", "title": "Theatre list",
//!     "start": "2024-01-08T08:00:00", "timeZone": "Europe/London", "duration": "PT4H",
//!     "recurrenceRules": [{"@type": "RecurrenceRule", "frequency": "weekly", "count": 3}]}"#;
//! let window = Window::year(2024).unwrap();
//! let zone = ZoneTable::fixed("Europe/London", 0);
//!
//! let table = expand_to_vec(event, &zone, window)?;
//! assert_eq!(table.len(), 3);
//! let first = table.records().next().unwrap();
//! assert_eq!((first.id, first.end - first.start, first.busy), (1_704_700_800, 4 * 3_600, true));
//! assert_eq!(title(event, first.id)?.as_str(), "Theatre list");
//! assert_eq!(title(event, 0), Err(Status::NoOccurrence));
//! # Ok::<(), Status>(())
//! ```
#![deny(unsafe_code)]
#![warn(missing_docs)]

mod calls;
mod fault;
pub mod raw;
mod record;
mod status;
mod table;
mod text;
pub mod time;
pub mod tzif;
mod weeks;
mod window;
mod zone;

pub use calls::{description, expand, expand_entries, expand_to_vec, title};
pub use fault::{locate, Fault, MemberPath, Place, Step};
pub use record::{Record, Records};
pub use status::Status;
pub use table::Table;
pub use text::Text;
pub use weeks::{weeks, weeks_into, Tallies, Week, WeekRange, Weeks, WeeksError};
pub use window::Window;
pub use zone::{Transition, ZoneTable};
