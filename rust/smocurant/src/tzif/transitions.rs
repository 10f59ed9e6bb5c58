//! The entries of a zone table: the changes of a file, and those that its rule gives up to the window's end.

use super::file::File;
use super::posix::Rule;
use super::Error;
use crate::time;
use crate::window::Window;
use crate::zone::{Transition, ZoneTable};

/// Seconds of a day.
const DAY: i64 = 86_400;

/// The instants of a table lie within these.
const FURTHEST_INSTANT: i64 = 1 << 40;

/// No date of an event lies before 1601, so a rule that holds from the beginning need not go further back.
const FIRST_YEAR: i64 = 1600;

/// So far after the window an override may move a start.
const FURTHEST_MOVE: i64 = 366 * DAY;

/// So far after a start the days of its length lead, in local time.
const LONGEST: i64 = 366 * DAY;

/// The rule is carried on so many seconds after the window's end: a local time is less than a day from UTC.
const AFTER_WINDOW: i64 = FURTHEST_MOVE + LONGEST + DAY;

/// The initial offset and the entries of a table for a window.
pub fn all(file: &File, window: Window) -> Result<(i64, Vec<Transition>), Error> {
    let last_written = file.changes.last().map(|(instant, _)| *instant);
    let horizon = (window.end() + AFTER_WINDOW).max(last_written.map_or(i64::MIN, |last| last.saturating_add(1)));
    let mut changes = file.changes.clone();
    if let Some(rule) = &file.rule {
        let first_year = last_written.map_or(FIRST_YEAR, |last| time::date(last).0.max(FIRST_YEAR));
        // One year more, since an end of daylight saving time may be its next start.
        let last_year = time::date(window.end() + AFTER_WINDOW).0 + 1;
        let ruled = (first_year..=last_year).flat_map(|year| in_year(rule, year));
        changes.extend(ruled.filter(|(instant, _)| last_written.is_none_or(|last| *instant > last)));
    }
    let initial_offset = offset_before(-FURTHEST_INSTANT, file.initial_offset, &changes);
    changes.retain(|(instant, _)| (-FURTHEST_INSTANT..=FURTHEST_INSTANT).contains(instant));
    let mut entries = real_changes(initial_offset, changes);
    entries.retain(|entry| entry.instant < horizon);
    if entries.len() > ZoneTable::MOST_ENTRIES {
        return Err(Error::TooManyTransitions(entries.len()));
    }
    Ok((initial_offset, entries))
}

/// The changes that a rule gives in a year, in order of time. Without daylight saving time, its offset holds from the year's start.
fn in_year(rule: &Rule, year: i64) -> Vec<(i64, i64)> {
    let Some(daylight) = &rule.daylight else {
        return vec![(time::seconds(year, 1, 1) - rule.standard, rule.standard)];
    };
    let start = (daylight.start.in_year(year) - rule.standard, daylight.offset);
    let end = (daylight.end.in_year(year) - daylight.offset, rule.standard);
    if start.0 < end.0 {
        vec![start, end]
    } else {
        vec![end, start]
    }
}

/// The offset that holds just before an instant.
fn offset_before(instant: i64, initial_offset: i64, changes: &[(i64, i64)]) -> i64 {
    changes.iter().take_while(|(change, _)| *change < instant).last().map_or(initial_offset, |(_, offset)| *offset)
}

/// Leaves out what changes nothing: new abbreviations, and an end of daylight saving time in the moment of its next start.
fn real_changes(initial_offset: i64, changes: Vec<(i64, i64)>) -> Vec<Transition> {
    let mut entries: Vec<Transition> = Vec::new();
    for (instant, offset) in changes {
        if entries.last().is_some_and(|last| last.instant == instant) {
            entries.pop();
        }
        let before = entries.last().map_or(initial_offset, |last| last.offset);
        if offset != before {
            entries.push(Transition { instant, offset });
        }
    }
    entries
}

#[cfg(test)]
mod tests {
    use super::super::posix;
    use super::*;

    fn file(changes: &[(i64, i64)], rule: &str) -> File {
        File { initial_offset: 100, changes: changes.to_vec(), rule: posix::read(rule) }
    }

    fn year(year: i64) -> Window {
        Window::year(year).unwrap()
    }

    #[test]
    fn a_rule_goes_on_after_the_last_change() {
        let (initial, entries) = all(&file(&[(0, 3_600), (1_711_846_800, 7_200)], "CET-1CEST,M3.5.0,M10.5.0/3"), year(2025)).unwrap();
        assert_eq!(initial, 100);
        let shown: Vec<(String, i64)> = entries.iter().map(|entry| (time::written(entry.instant), entry.offset)).collect();
        let expected = [
            ("1970-01-01T00:00:00", 3_600),
            ("2024-03-31T01:00:00", 7_200),
            ("2024-10-27T01:00:00", 3_600),
            ("2025-03-30T01:00:00", 7_200),
            ("2025-10-26T01:00:00", 3_600),
            ("2026-03-29T01:00:00", 7_200),
            ("2026-10-25T01:00:00", 3_600),
            ("2027-03-28T01:00:00", 7_200),
            ("2027-10-31T01:00:00", 3_600),
        ];
        assert_eq!(shown, expected.map(|(instant, offset)| (instant.to_string(), offset)));
    }

    #[test]
    fn a_rule_without_daylight_saving_time() {
        let (_, entries) = all(&file(&[(0, 3_600)], "JST-9"), year(2025)).unwrap();
        assert_eq!(entries.iter().map(|entry| entry.offset).collect::<Vec<_>>(), [3_600, 32_400]);
        let (_, entries) = all(&file(&[(0, 32_400)], "JST-9"), Window::WIDEST).unwrap();
        assert_eq!(entries, [Transition { instant: 0, offset: 32_400 }]);
    }

    #[test]
    fn daylight_saving_time_all_year() {
        let (_, entries) = all(&file(&[(0, -10_800)], "XXX3EDT2,0/0,J365/25"), year(2025)).unwrap();
        assert_eq!(entries.len(), 2, "{entries:?}");
    }

    #[test]
    fn changes_before_time() {
        let (initial, entries) = all(&file(&[(-(1 << 59), 50), (0, 60)], "XXX0"), year(2025)).unwrap();
        assert_eq!((initial, entries.len()), (50, 2));
    }

    #[test]
    fn too_many() {
        let result = all(&file(&[(0, 3_600)], "CET-1CEST,M3.5.0,M10.5.0/3"), Window::WIDEST);
        assert!(matches!(result, Err(Error::TooManyTransitions(16_000..))));
    }
}
