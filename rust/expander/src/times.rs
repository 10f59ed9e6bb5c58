//! The UTC times of an occurrence: "The end is now found in its steps: add weeks and days to the local start, convert to UTC, add the hours,
//! minutes and seconds as absolute time."

use crate::civil::DAY;
use crate::event::{Duration, Occurrence};
use crate::zone::Zone;

/// The start and the end in UTC. A floating event has no zone.
pub fn start_and_end(occurrence: &Occurrence, zone: Option<&Zone>) -> (i64, i64) {
    // "UTC is local minus offset; floating uses 0"
    let utc = |local: i64| local - zone.map_or(0, |zone| zone.offset(local));
    let Duration { days, seconds } = occurrence.details.duration;
    let moved = occurrence.start + days * DAY;
    // "Where a jump puts the end before the start, it is written as calculated."
    (utc(occurrence.start), utc(moved) + seconds)
}
