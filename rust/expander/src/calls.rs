//! The whole calls, with the parameters and answers of the exported functions.

use crate::answer::Refusal;
use crate::event::{Details, Event, Privacy};
use crate::json::Text;
use crate::recurrence::{END_OF_TIME, START_OF_TIME};
use crate::table;
use crate::window::Window;
use crate::zone::Zone;

/// The answer number when all is well.
const DONE: u32 = 0;

/// Writes the table of an event's occurrences in a window into the buffer: the answer number, and the table's length.
///
/// After a refusal the length is 0 and the buffer keeps its bytes.
#[allow(clippy::too_many_arguments)] // the exported function has them
pub fn expand(
    text: &[u8],
    zone_name: &[u8],
    initial_offset: i64,
    instants: &[i64],
    offsets: &[i64],
    window_start: i64,
    window_end: i64,
    buffer: &mut [u8],
) -> (u32, u64) {
    let zone = || Zone::new(zone_name, initial_offset, instants, offsets);
    match try_expand(text, zone, || Window::new(window_start, window_end), buffer) {
        Ok(length) => (DONE, length as u64),
        Err(refusal) => (refusal.number(), 0),
    }
}

/// Judges in the order of the numbers.
fn try_expand<'n>(
    text: &[u8],
    zone: impl FnOnce() -> Result<Zone<'n>, Refusal>,
    window: impl FnOnce() -> Result<Window, Refusal>,
    buffer: &mut [u8],
) -> Result<usize, Refusal> {
    let event = Event::read(text)?;
    let zone = zone()?;
    let window = window()?;
    let is_elsewhere = event.zone().is_some_and(|name| name != zone.name());
    if is_elsewhere && event.privacy() != Privacy::Secret {
        return Err(Refusal::OtherZone);
    }
    let ids = table::record_ids(&event, &window);
    let bytes = buffer.get_mut(..table::length(&ids)).ok_or(Refusal::Buffer)?;
    table::write(&event, &zone, &ids, bytes);
    Ok(bytes.len())
}

/// The title of one occurrence: the answer number, and place and length of the title in the text.
pub fn title(text: &[u8], date: i64) -> (u32, u64, u64) {
    part(text, date, |details| details.title)
}

/// The description of one occurrence, as [`title`].
pub fn description(text: &[u8], date: i64) -> (u32, u64, u64) {
    part(text, date, |details| details.description)
}

/// Which property was wrong: the answer number of the other calls on this text, and for 20 to 26 the byte place at which the first such value
/// begins. For every other number the place is 0.
pub fn locate(text: &[u8]) -> (u32, u64) {
    match Event::judge(text) {
        Ok(_) => (DONE, 0),
        Err(fault) if fault.refusal.is_wrong_value() => (fault.refusal.number(), fault.place as u64),
        Err(fault) => (fault.refusal.number(), 0),
    }
}

fn part<'t>(text: &'t [u8], date: i64, choose: fn(Details<'t>) -> Option<Text<'t>>) -> (u32, u64, u64) {
    match details_at(text, date) {
        Err(refusal) => (refusal.number(), 0, 0),
        Ok(details) => match choose(details) {
            Some(text) if !text.raw.is_empty() => (DONE, text.start as u64, text.raw.len() as u64),
            _ => (DONE, 0, 0),
        },
    }
}

/// "A date asked that is no occurrence answers 14", and so does every date of a secret event.
fn details_at(text: &[u8], date: i64) -> Result<Details<'_>, Refusal> {
    let event = Event::read(text)?;
    let is_in_time = (START_OF_TIME..END_OF_TIME).contains(&date);
    if event.privacy() == Privacy::Secret || !is_in_time || event.ids(date..date + 1).is_empty() {
        return Err(Refusal::NoOccurrence);
    }
    Ok(event.occurrence(date).details)
}
