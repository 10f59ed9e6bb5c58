//! Texts: a typical one, and the worst of 64 KiB.

use generator::dates::{self, DAY};
use generator::examples::{by_day, event};

/// A weekly list with some changes.
pub const THEATRE: &str = include_str!("../../../examples/events/theatre-lists.json");

/// The longest text that is read.
const LONGEST: usize = 65_536;

const START: &str = "2026-01-01T09:00:00";

/// Texts that take the most work by their length, with what they have much of.
pub fn worst() -> Vec<(&'static str, String)> {
    vec![
        ("64 KiB: a long title", padded(|room| format!(r#", "title": "{}""#, "a".repeat(room - 14)))),
        ("64 KiB: 10,000 escapes", event(START, &escapes(10_800))),
        ("64 KiB: 8,600 members", event(START, &members(8_600))),
        ("64 KiB: members with long names alike", event(START, &long_names(240))),
        ("64 KiB: 16 levels, again and again", event(START, &deep(1_900))),
        ("64 KiB: members on 15 levels", event(START, &deep_members(7_500))),
        ("64 KiB: 14 objects in one another, each with 600 members", event(START, &nested_members(300))),
        ("64 KiB: 9,000 objects on level 15", event(START, &small_objects(9_000))),
        ("64 KiB: 30,000 elements", event(START, &format!(r#", "x": [{}0]"#, "0,".repeat(32_000)))),
        ("64 KiB: 250 overrides, each with a title", event(START, &overrides(250, &format!(r#""title": "{}""#, "b".repeat(205))))),
        ("64 KiB: 256 overrides, 16 rules with 64 entries each", event(START, &rules_and_overrides())),
        ("64 KiB: as before, yearly", event(START, &rules_and_overrides().replace(r#""monthly""#, r#""yearly""#))),
    ]
}

/// A text of the full length.
fn padded(members: impl Fn(usize) -> String) -> String {
    event(START, &members(LONGEST - event(START, "").len()))
}

/// A description of escapes.
pub fn escapes(count: usize) -> String {
    format!(r#", "description": "{}""#, "\\u00e4".repeat(count))
}

/// An object of members with short names, no two alike.
pub fn members(count: usize) -> String {
    let letters: Vec<char> = (' '..='~').filter(|letter| !matches!(letter, '"' | '\\')).collect();
    let name = |place: usize| format!("\"{}{}\":0", letters[place % letters.len()], letters[place / letters.len()]);
    format!(r#", "x": {{{}}}"#, (0..count).map(name).collect::<Vec<_>>().join(","))
}

/// An object of members whose names differ in their last bytes only.
fn long_names(count: usize) -> String {
    let members: Vec<String> = (0..count).map(|place| format!("\"{}{place:04}\":0", "n".repeat(255))).collect();
    format!(r#", "x": {{{}}}"#, members.join(","))
}

/// Arrays of 14 levels in one another, side by side.
fn deep(count: usize) -> String {
    let nested = format!("{}{}", "[".repeat(14), "]".repeat(14));
    format!(r#", "x": [{}]"#, vec![nested; count].join(","))
}

/// Objects down to the last level; the innermost has all the members.
fn deep_members(count: usize) -> String {
    let innermost: Vec<String> = (0..count).map(|place| format!("\"{place:x}\":0")).collect();
    let (open, close) = (r#"{"a":"#.repeat(14), "}".repeat(14));
    format!(r#", "x": {open}{{{}}}{close}"#, innermost.join(","))
}

/// Objects in one another, each with so many members before the next one and behind it.
fn nested_members(count: usize) -> String {
    let run = |from: usize| (from..from + count).map(|place| format!("\"{place:x}\":0")).collect::<Vec<_>>().join(",");
    let (before, behind) = (run(0), run(count));
    let nested = (0..14).fold("0".to_string(), |inner, _| format!(r#"{{{before},"a b":{inner},{behind}}}"#));
    format!(r#", "x": {nested}"#)
}

/// Objects of one member each, all on one level.
fn small_objects(count: usize) -> String {
    let (open, close) = ("[".repeat(13), "]".repeat(13));
    format!(r#", "x": {open}{}{close}"#, vec![r#"{"":0}"#; count].join(","))
}

/// Members of one name, which is refused.
pub fn alike(count: usize) -> String {
    event(START, &format!(r#", "x": {{{}}}"#, vec![r#""":0"#; count].join(",")))
}

/// As many rules as are allowed, all alike, each with a count.
pub fn counted(rule: &str, count: u32) -> String {
    let rule = format!(r#"{{"@type":"RecurrenceRule",{rule},"count":{count}}}"#);
    let list = vec![rule; 8].join(",");
    event("1601-01-01T09:00:00", &format!(r#", "recurrenceRules": [{list}], "excludedRecurrenceRules": [{list}]"#))
}

/// Rules of every kind that have less than two dates in three days.
pub fn endless_rules() -> Vec<(&'static str, String)> {
    let working = by_day("mo tu we th fr");
    let some = r#""byMonthDay":[1,2,3,4,5,6,7,8,9,10,11,12,13,14,15,16,17,18,19]"#;
    let every = |frequency: &str, interval: u32, rest: &str| format!(r#""frequency":"{frequency}","interval":{interval}{rest}"#);
    vec![
        ("daily, 19 days of each month", every("daily", 1, &format!(",{some}"))),
        ("every second day", every("daily", 2, "")),
        ("every 63rd day", every("daily", 63, "")),
        ("every 200th day", every("daily", 200, "")),
        ("daily, position 1 of Mondays", every("daily", 1, &format!(r#",{},"bySetPosition":[1]"#, by_day("mo")))),
        ("every 513th day, first of five days", every("daily", 513, &format!(r#",{working},"bySetPosition":[1]"#))),
        ("weekly on three days", every("weekly", 1, &format!(",{}", by_day("mo tu we")))),
        ("every second week on five days", every("weekly", 2, &format!(",{working}"))),
        ("every 13th week on five days", every("weekly", 13, &format!(",{working}"))),
        ("weekly, last of five days", every("weekly", 1, &format!(r#",{working},"bySetPosition":[-1]"#))),
        ("every third week, last of five days", every("weekly", 3, &format!(r#",{working},"bySetPosition":[-1]"#))),
        ("monthly, last of five days", every("monthly", 1, &format!(r#",{working},"bySetPosition":[-1]"#))),
        ("every fifth month, last of five days", every("monthly", 5, &format!(r#",{working},"bySetPosition":[-1]"#))),
        ("monthly on the 31st", every("monthly", 1, r#","byMonthDay":[31]"#)),
        (
            "yearly, last of five days in three months",
            every("yearly", 1, &format!(r#",{working},"byMonth":["1","6","12"],"bySetPosition":[-1]"#)),
        ),
        ("yearly, the 20th Monday", every("yearly", 1, r#","byDay":[{"@type":"NDay","day":"mo","nthOfPeriod":20}]"#)),
        ("yearly, 29 February", every("yearly", 1, r#","byMonth":["2"],"byMonthDay":[29]"#)),
    ]
}

/// Overrides of the days from the start on.
pub fn overrides(count: usize, patch: &str) -> String {
    let first = dates::read(START);
    let all: Vec<String> = (0..count as i64).map(|day| format!("\"{}\":{{{patch}}}", dates::written(first + day * DAY))).collect();
    format!(r#", "recurrenceOverrides": {{{}}}"#, all.join(","))
}

/// As many overrides, rules and entries as are allowed.
fn rules_and_overrides() -> String {
    let month_days: Vec<String> = (0..64).map(|place| (place % 31 + 1).to_string()).collect();
    let months: Vec<String> = (0..64).map(|place| format!("\"{}\"", place % 12 + 1)).collect();
    let positions: Vec<String> = (0..64).map(|place| (place - 64).to_string()).collect();
    let days = vec![r#"{"@type":"NDay","day":"mo","nthOfPeriod":-1}"#; 64].join(",");
    let rule = format!(
        r#"{{"@type":"RecurrenceRule","frequency":"monthly","byMonthDay":[{}],"byMonth":[{}],"bySetPosition":[{}],"byDay":[{days}]}}"#,
        month_days.join(","),
        months.join(","),
        positions.join(","),
    );
    let list = vec![rule; 8].join(",");
    format!(r#", "recurrenceRules": [{list}], "excludedRecurrenceRules": [{list}]{}"#, overrides(256, ""))
}

#[cfg(test)]
mod tests {
    use super::*;

    #[test]
    fn texts_are_long_and_read() {
        for (name, text) in worst() {
            assert!((55_000..=LONGEST).contains(&text.len()), "{name}: {}", text.len());
            assert!(expander::Event::read(text.as_bytes()).is_ok(), "{name}");
        }
    }
}
