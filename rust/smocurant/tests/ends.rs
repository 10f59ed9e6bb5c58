//! UTC times of occurrences: weeks and days of a length are moved in local time, hours, minutes and seconds are absolute.

use generator::examples::ends::{self, Worked};
use generator::examples::event;
use smocurant::{expand_entries, expand_to_vec, time, tzif, Table, Transition, Window, ZoneTable};
use std::path::Path;

const SHIPPED: &str = concat!(env!("CARGO_MANIFEST_DIR"), "/../../examples/zones");

/// The start and the end of each record.
fn times(table: &Table) -> Vec<(i64, i64)> {
    table.records().map(|record| (record.start, record.end)).collect()
}

/// The zone table of a worked end.
fn zone(worked: &Worked) -> ZoneTable {
    let numbers = &worked.zone;
    let entries = numbers.instants.iter().zip(&numbers.offsets).map(|(&instant, &offset)| Transition { instant, offset });
    ZoneTable::new(std::str::from_utf8(&numbers.name).unwrap(), numbers.initial_offset, entries)
}

#[test]
fn worked_ends() {
    for worked in ends::all() {
        let (text, zone) = (worked.text.as_bytes(), zone(&worked));
        let table = expand_to_vec(text, &zone, Window::WIDEST).unwrap();
        assert_eq!(times(&table), worked.times, "{worked:?}");
        let entries: Vec<Transition> = zone.entries().collect();
        let mut buffer = vec![0; table.as_bytes().len()];
        let other = expand_entries(text, zone.name(), zone.initial_offset(), &entries, Window::WIDEST, &mut buffer).unwrap();
        assert_eq!(other, table, "{worked:?}");
    }
}

/// The zones' own files give the same ends.
#[test]
fn worked_ends_in_shipped_zones() {
    let window = Window::year(2026).unwrap();
    let shipped: Vec<Worked> = ends::all().into_iter().filter(|worked| Path::new(SHIPPED).join(zone(worked).name()).is_file()).collect();
    assert!(shipped.len() > 25);
    for worked in shipped {
        let zone = tzif::in_folder(Path::new(SHIPPED), zone(&worked).name(), window).unwrap();
        let table = expand_to_vec(worked.text.as_bytes(), &zone, window).unwrap();
        assert_eq!(times(&table), worked.times, "{worked:?}");
    }
}

/// The end of an occurrence at the end of a window.
fn last_end(start: &str, length: &str, members: &str, window_end: &str) -> String {
    let window = Window::new(Window::WIDEST.start(), time::read(window_end).unwrap()).unwrap();
    let zone = tzif::in_folder(Path::new(SHIPPED), "America/New_York", window).unwrap();
    let text = event(start, &format!(r#", "timeZone": "America/New_York", "duration": "{length}"{members}"#));
    let table = expand_to_vec(text.as_bytes(), &zone, window).unwrap();
    time::written(table.records().next_back().unwrap().end)
}

/// A table from a file goes on after its window as far as the longest length leads, also from a start that is moved. The file's changes end in
/// 2037. By its rule the clocks change at 2051-03-12T07:00:00Z and 2052-03-10T07:00:00Z, when it becomes 03:00:00 in summer time.
#[test]
fn ends_far_after_the_window() {
    assert_eq!(last_end("2050-03-11T03:00:00", "P366D", "", "2050-03-11T03:00:01"), "2051-03-12T07:00:00");
    assert_eq!(last_end("2050-03-11T02:59:59", "P366D", "", "2050-03-11T03:00:00"), "2051-03-12T07:59:59");
    let moved = r#", "recurrenceOverrides": {"2050-03-09T00:00:00": {"start": "2051-03-10T03:00:00"}}"#;
    assert_eq!(last_end("2050-03-08T00:00:00", "P366D", moved, "2050-03-09T03:00:01"), "2052-03-10T07:00:00");
}
