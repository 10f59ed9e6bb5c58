//! The calls on this crate's types.

use crate::raw;
use crate::status::Status;
use crate::table::Table;
use crate::text::Text;
use crate::window::Window;
use crate::zone::{Transition, ZoneTable};

/// Writes an event's occurrences in a window into a lent buffer. After a refusal the buffer is as it was.
///
/// ```
/// use smocurant::{expand, Status, Window, ZoneTable};
///
/// let event = br#"{"@type": "Event", "uid": "1", "updated": "2024-01-01T00:00:00Z", "start": "2024-02-29T00:00:00"}"#;
/// let mut buffer = [0; 1_000];
/// let table = expand(event, &ZoneTable::floating(), Window::year(2024)?, &mut buffer)?;
/// assert_eq!(table.len(), 1);
/// assert_eq!(expand(event, &ZoneTable::floating(), Window::year(2024)?, &mut []), Err(Status::Buffer));
/// # Ok::<(), Status>(())
/// ```
pub fn expand<'b>(text: &[u8], zone: &ZoneTable, window: Window, buffer: &'b mut [u8]) -> Result<Table<'b>, Status> {
    let (instants, offsets) = (zone.instants(), zone.offsets());
    let answer = raw::expand(text, zone.name().as_bytes(), zone.initial_offset(), instants, offsets, window.start(), window.end(), buffer);
    table(answer, buffer)
}

/// As [`expand`], with the entries of a zone table as structs.
///
/// ```
/// use smocurant::{expand_entries, time, Status, Transition, Window};
///
/// let event = br#"{"@type": "Event", "uid": "1", "updated": "2024-01-01T00:00:00Z", "start": "2020-11-01T01:30:00", "timeZone": "Z"}"#;
/// let entries = [Transition { instant: 1_604_221_200, offset: -28_800 }];
/// let mut buffer = [0; 1_000];
/// let table = expand_entries(event, "Z", -25_200, &entries, Window::WIDEST, &mut buffer)?;
/// // The hour comes twice; the offset before the change is used.
/// assert_eq!(time::written(table.records().next().unwrap().start), "2020-11-01T08:30:00");
/// # Ok::<(), Status>(())
/// ```
pub fn expand_entries<'b>(
    text: &[u8],
    zone_name: &str,
    initial_offset: i64,
    entries: &[Transition],
    window: Window,
    buffer: &'b mut [u8],
) -> Result<Table<'b>, Status> {
    let answer = raw::expand_entries(text, zone_name.as_bytes(), initial_offset, entries, window.start(), window.end(), buffer);
    table(answer, buffer)
}

/// The table that stands in a buffer after an answer.
fn table((answer, length): (u32, u64), buffer: &mut [u8]) -> Result<Table<'_>, Status> {
    done(answer)?;
    Ok(Table::written(&buffer[..place(length)]))
}

/// The bytes that are lent first: enough for most events in a year.
const FIRST_ROOM: usize = 1 << 14;

/// An event's occurrences in a window, in a buffer that grows until they fit.
pub fn expand_to_vec(text: &[u8], zone: &ZoneTable, window: Window) -> Result<Table<'static>, Status> {
    let mut buffer = vec![0; FIRST_ROOM];
    loop {
        match expand(text, zone, window, &mut buffer).map(|table| table.as_bytes().len()) {
            Ok(length) => {
                buffer.truncate(length);
                return Ok(Table::written(buffer));
            }
            Err(Status::Buffer) => buffer.resize(buffer.len() * 4, 0),
            Err(status) => return Err(status),
        }
    }
}

/// The title of the occurrence at a local date, as the part of the text that holds it. Not of private events, and where there is none, it
/// is empty.
pub fn title(text: &[u8], date: i64) -> Result<Text<'_>, Status> {
    part(text, raw::title(text, date))
}

/// The description of the occurrence at a local date, as [`title`].
pub fn description(text: &[u8], date: i64) -> Result<Text<'_>, Status> {
    part(text, raw::description(text, date))
}

fn part(text: &[u8], (answer, start, length): (u32, u64, u64)) -> Result<Text<'_>, Status> {
    done(answer)?;
    Ok(Text::new(text, place(start)..place(start) + place(length)))
}

/// Nothing after the answer 0, or what the call was refused with.
pub(crate) fn done(answer: u32) -> Result<(), Status> {
    match Status::of_number(answer) {
        Some(Status::Done) => Ok(()),
        Some(status) => Err(status),
        None => unreachable!("the library answers 0 to 5, 7 to 14, 20 to 26 or 30 to 41, and not {answer}"),
    }
}

/// A place in a slice that the library was given, or a number of such places.
pub(crate) fn place(number: u64) -> usize {
    usize::try_from(number).expect("places lie inside of slices")
}
