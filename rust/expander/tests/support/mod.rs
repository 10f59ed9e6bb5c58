//! Events and dates for the tests.
#![allow(dead_code, unused_imports)] // each test file uses some

use expander::Event;
pub use generator::dates::read as seconds;
pub use generator::examples::{by_day, event, recurring};

/// The answer number to a text alone: 0 to 5, 7 to 9 or 20 to 26.
pub fn answer(text: impl AsRef<[u8]>) -> u32 {
    Event::read(text.as_ref()).map_or_else(|refusal| refusal.number(), |_| 0)
}

/// The ids of an event from its beginning to a date.
pub fn ids_until(text: &str, end: &str) -> Vec<i64> {
    let event = Event::read(text.as_bytes()).unwrap_or_else(|refusal| panic!("{refusal:?}: {text}"));
    event.ids(generator::dates::FIRST..seconds(end))
}

/// Local seconds, readable.
pub fn show(ids: &[i64]) -> Vec<String> {
    ids.iter().map(|id| generator::dates::written(*id)).collect()
}
