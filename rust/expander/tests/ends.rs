//! UTC times of occurrences. Weeks and days are moved in local time; hours, minutes and seconds are absolute.

mod support;
use expander::{Duration, Event, Sheet};
use generator::dates::{END, FIRST};
use generator::examples::ends::{self, Worked};
use support::{event, seconds, show};

/// The start and the end of each record, in the widest window.
fn times(worked: &Worked) -> Vec<i64> {
    let zone = &worked.zone;
    let mut buffer = [0; 12 + 4 * 28];
    let (answer, length) =
        expander::expand(worked.text.as_bytes(), &zone.name, zone.initial_offset, &zone.instants, &zone.offsets, FIRST, END, &mut buffer);
    assert_eq!(answer, 0, "{worked:?}");
    Sheet::read(&buffer[..length as usize]).unwrap().records().flat_map(|record| [record.start, record.end]).collect()
}

#[test]
fn worked_ends() {
    for worked in ends::all() {
        let expected: Vec<i64> = worked.times.iter().flat_map(|(start, end)| [*start, *end]).collect();
        assert_eq!(show(&times(&worked)), show(&expected), "{worked:?}");
    }
}

/// The length of an event, and that of a date with another one.
fn lengths(own: &str, patched: &str) -> [Duration; 2] {
    let members = format!(r#", "duration": "{own}", "recurrenceOverrides": {{"2026-01-02T00:00:00": {{"duration": "{patched}"}}}}"#);
    let text = event("2026-01-01T00:00:00", &members);
    let event = Event::read(text.as_bytes()).unwrap();
    ["2026-01-01T00:00:00", "2026-01-02T00:00:00"].map(|date| event.occurrence(seconds(date)).details.duration)
}

/// "Demand 3 reads as before, with length meaning both parts."
#[test]
fn lengths_are_equal_where_both_parts_are() {
    for (one, other) in [("P1W", "P7D"), ("PT60M", "PT1H"), ("P1W1DT24H", "p08dt1440m"), ("P0D", "PT0S"), ("P1D", "P1DT0S")] {
        let [own, patched] = lengths(one, other);
        assert_eq!(own, patched, "{one} and {other}");
    }
    for (one, other) in [("P1D", "PT24H"), ("P1W", "PT168H"), ("P2D", "P1DT24H"), ("P366D", "PT8784H"), ("PT24H", "PT25H")] {
        let [own, patched] = lengths(one, other);
        assert_ne!(own, patched, "{one} and {other}");
    }
}
