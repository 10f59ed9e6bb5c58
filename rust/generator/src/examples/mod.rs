//! Events with the dates that documents give for them: those of document 01, of RFC 5545 and of RFC 8984. Events with their [`ends`], and
//! [`replays`], each with what the request for them gives.

pub mod answers;
pub mod ends;
mod other_calendars;
mod places;
pub mod replays;
mod rfc5545;
mod rfc8984;
mod worked_dates;

pub use rfc8984::COURSE;

use crate::dates;

/// An event, and its recurrence ids up to a date.
#[derive(Clone, Debug)]
pub struct Example {
    pub text: String,
    /// Local seconds; the ids before this are listed.
    pub end: i64,
    pub ids: Vec<i64>,
}

/// All examples.
pub fn all() -> Vec<Example> {
    let mut list = Examples { list: Vec::new() };
    worked_dates::add(&mut list);
    rfc5545::add(&mut list);
    rfc8984::add(&mut list);
    other_calendars::add(&mut list);
    list.list
}

/// An event with a start, and further members that begin with a comma.
pub fn event(start: &str, members: &str) -> String {
    format!(r#"{{"@type": "Event", "uid": "1", "updated": "2024-01-01T00:00:00Z", "start": "{start}"{members}}}"#)
}

/// An event with one rule; `rule` has the rule's members after `@type`, without braces.
pub fn recurring(start: &str, rule: &str) -> String {
    event(start, &format!(r#", "recurrenceRules": [{{"@type": "RecurrenceRule", {rule}}}]"#))
}

/// `byDay` of weekdays, each with its number before it if it has one: `"2mo -1fr su"`.
pub fn by_day(days: &str) -> String {
    let entries: Vec<String> = days.split(' ').map(nth_day).collect();
    format!(r#""byDay": [{}]"#, entries.join(", "))
}

fn nth_day(day: &str) -> String {
    let (nth, name) = day.split_at(day.len() - 2);
    let nth = if nth.is_empty() { String::new() } else { format!(r#", "nthOfPeriod": {nth}"#) };
    format!(r#"{{"@type": "NDay", "day": "{name}"{nth}}}"#)
}

/// Collects examples.
struct Examples {
    list: Vec<Example>,
}

impl Examples {
    /// An event at 9 o'clock with one rule. `days` has years and months with their days, as the RFCs print them:
    /// `"1997-09: 2 4 6-8; 1997-10: 1"`.
    fn add(&mut self, start: &str, rule: &str, end: &str, days: &str) {
        self.add_text(&recurring(&format!("{start}T09:00:00"), rule), end, days);
    }

    /// An event whose ids all have 9 o'clock.
    fn add_text(&mut self, text: &str, end: &str, days: &str) {
        let ids = days.split(';').flat_map(month_days).map(|day| day + 9 * 3_600).collect();
        self.list.push(Example { text: text.to_string(), end: dates::read(end), ids });
    }

    /// An event with any ids.
    fn add_ids(&mut self, text: &str, end: &str, ids: &[&str]) {
        let ids = ids.iter().map(|id| dates::read(id)).collect();
        self.list.push(Example { text: text.to_string(), end: dates::read(end), ids });
    }
}

fn month_days(line: &str) -> Vec<i64> {
    let (month, days) = line.trim().split_once(": ").expect("a month and its days");
    let day = |day: &str| dates::read(&format!("{month}-{day:0>2}"));
    let run = |run: &str| match run.split_once('-') {
        Some((first, last)) => (day(first)..=day(last)).step_by(dates::DAY as usize).collect(),
        None => vec![day(run)],
    };
    days.split(' ').flat_map(run).collect()
}
