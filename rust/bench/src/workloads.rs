//! What is timed.

use crate::texts;
use generator::dates;
use generator::examples::{by_day, event, recurring};
use smocurant::{tzif, Window, ZoneTable};
use std::ffi::CString;
use std::rc::Rc;

/// One call. Copies share the text and the zone table.
#[derive(Clone)]
pub struct Workload {
    pub name: String,
    pub text: Rc<[u8]>,
    pub window: (i64, i64),
    /// The same rule for libical, with its start.
    pub rule: Option<(String, i64)>,
    zone: Rc<ZoneTable>,
}

impl Workload {
    /// A call with London's zone table.
    pub fn new(name: &str, text: impl Into<Vec<u8>>, from: &str, to: &str) -> Workload {
        let window = (dates::read(from), dates::read(to));
        Workload { name: name.to_string(), text: Rc::from(text.into()), window, rule: None, zone: zone() }
    }

    fn with_rule(self, rule: &str, start: &str) -> Workload {
        Workload { rule: Some((rule.to_string(), dates::read(start))), ..self }
    }

    /// The same call with another zone table.
    pub fn with_zone(self, zone: &Rc<ZoneTable>) -> Workload {
        Workload { zone: Rc::clone(zone), ..self }
    }

    /// The same call with a window that ends where it begins: what a call takes beside the expansion of its rules.
    pub fn without_window(&self) -> Workload {
        Workload { window: (self.window.0, self.window.0), ..self.clone() }
    }

    /// More than an occurrence a day and the overrides need, so that the library does not count them first.
    pub fn room(&self) -> usize {
        let days = (self.window.1 - self.window.0) / dates::DAY + 1;
        (days as usize + 256) * 32
    }

    /// The library's call.
    pub fn library(&self, buffer: &mut [u8]) -> (u32, u64) {
        let zone = &*self.zone;
        let (start, end) = self.window;
        smocurant::raw::expand(
            &self.text,
            zone.name().as_bytes(),
            zone.initial_offset(),
            zone.instants(),
            zone.offsets(),
            start,
            end,
            buffer,
        )
    }

    /// The expander's call.
    pub fn expander(&self, buffer: &mut [u8]) -> (u32, u64) {
        let zone = &*self.zone;
        let (start, end) = self.window;
        expander::expand(&self.text, zone.name().as_bytes(), zone.initial_offset(), zone.instants(), zone.offsets(), start, end, buffer)
    }
}

thread_local! {
    static LONDON: Rc<ZoneTable> = Rc::new(london());
}

/// London's zone table, read once.
fn zone() -> Rc<ZoneTable> {
    LONDON.with(Rc::clone)
}

/// London from its file, with the file's rule carried on to 2078.
fn london() -> ZoneTable {
    let bytes = include_bytes!("../../../examples/zones/Europe/London");
    let window = Window::new(dates::read("1970-01-01"), dates::read("2076-01-01")).expect("the dates are in order");
    tzif::table("Europe/London", bytes, window).expect("the file is right")
}

/// The workloads of one line each.
pub fn all() -> Vec<Workload> {
    let mut list = rules();
    list.extend(far_rules());
    list.extend(texts::worst().into_iter().map(|(name, text)| Workload::new(name, text, "2026-01-01", "2027-01-01")));
    list.push(Workload::new("64 KiB: 13,000 members of one name", texts::alike(13_000), "2026-01-01", "2027-01-01"));
    list
}

/// Events from 1601 on with as many rules as are allowed, each with a count that is not used up in the window: in
/// the year 2026, then in 9998. A count of as many days as there are would not have to be looked for.
pub fn counted() -> Vec<(String, [Workload; 2])> {
    let windows = [("2026-01-01", "2027-01-01", 150_000), ("9998-01-01", "9999-01-01", 2_000_000)];
    let both = |(name, rule): (&str, String)| {
        (name.to_string(), windows.map(|(from, to, count)| Workload::new(name, texts::counted(&rule, count), from, to)))
    };
    texts::endless_rules().into_iter().map(both).collect()
}

/// Typical rules.
fn rules() -> Vec<Workload> {
    let weekdays = by_day("mo tu we th fr");
    let daily = r#""frequency": "daily""#;
    let weekly = format!(r#""frequency": "weekly", {weekdays}"#);
    let last = format!(r#""frequency": "monthly", "bySetPosition": [-1], {weekdays}"#);
    let yearly = r#""frequency": "yearly""#;
    let at = "2026-01-01T09:00:00";
    vec![
        Workload::new("a theatre event, a year", texts::THEATRE, "2026-01-01", "2027-01-01"),
        Workload::new("daily, 1 year", recurring(at, daily), "2026-01-01", "2027-01-01").with_rule("FREQ=DAILY", at),
        Workload::new("daily in London, PT24H, 1 year", in_zone(at, "PT24H", daily), "2026-01-01", "2027-01-01"),
        Workload::new("daily in London, P1D, 1 year", in_zone(at, "P1D", daily), "2026-01-01", "2027-01-01"),
        Workload::new("daily, 30 years", recurring(at, daily), "2026-01-01", "2056-01-01").with_rule("FREQ=DAILY", at),
        Workload::new("weekly on five days, 1 year", recurring(at, &weekly), "2026-01-01", "2027-01-01")
            .with_rule("FREQ=WEEKLY;BYDAY=MO,TU,WE,TH,FR", at),
        Workload::new("last weekday of the month, 10 years", recurring(at, &last), "2026-01-01", "2036-01-01")
            .with_rule("FREQ=MONTHLY;BYDAY=MO,TU,WE,TH,FR;BYSETPOS=-1", at),
        Workload::new("last weekday of the month in London, 10 years", in_zone(at, "PT1H", &last), "2026-01-01", "2036-01-01"),
        Workload::new("yearly, 50 years", recurring(at, yearly), "2026-01-01", "2076-01-01").with_rule("FREQ=YEARLY", at),
        Workload::new("yearly in London, 50 years", in_zone(at, "PT1H", yearly), "2026-01-01", "2076-01-01"),
    ]
}

/// Rules that begin long before the window, end by a count, or go through the widest window.
fn far_rules() -> Vec<Workload> {
    let (at, first) = ("2026-01-01T09:00:00", "1601-01-01T09:00:00");
    let daily = r#""frequency": "daily""#;
    let weekly = format!(r#""frequency": "weekly", {}, "count": 10000"#, by_day("mo tu we th fr"));
    let counted = r#""frequency": "daily", "count": 10000"#;
    let never = r#""frequency": "yearly", "byMonth": ["2"], "byMonthDay": [30]"#;
    vec![
        Workload::new("daily, a year, start 30 years before", recurring("1996-01-01T09:00:00", daily), "2026-01-01", "2027-01-01"),
        Workload::new("daily, count 10,000, its last year", recurring(at, counted), "2052-01-01", "2054-01-01"),
        Workload::new("weekly on five days, count 10,000, all of it", recurring(at, &weekly), "2026-01-01", "2076-01-01")
            .with_rule("FREQ=WEEKLY;BYDAY=MO,TU,WE,TH,FR;COUNT=10000", at),
        Workload::new("daily, the widest window", recurring(first, daily), "1601-01-01", "9999-01-01"),
        Workload::new("yearly, the widest window", recurring(first, r#""frequency": "yearly""#), "1601-01-01", "9999-01-01"),
        Workload::new("30 February, the widest window", recurring(first, never), "1601-01-01", "9999-01-01"),
    ]
}

/// The rules that libical has too, each as an event in London of one hour, with the same event as an iCalendar text.
pub fn in_london() -> Vec<(Workload, CString)> {
    let weekdays = by_day("mo tu we th fr");
    let five = "FREQ=WEEKLY;BYDAY=MO,TU,WE,TH,FR";
    [
        ("daily, 1 year", r#""frequency": "daily""#.to_string(), "FREQ=DAILY", "2026-01-01", "2027-01-01"),
        ("daily, 30 years", r#""frequency": "daily""#.to_string(), "FREQ=DAILY", "2026-01-01", "2056-01-01"),
        ("weekly on five days, 1 year", format!(r#""frequency": "weekly", {weekdays}"#), five, "2026-01-01", "2027-01-01"),
        (
            "last weekday of the month, 10 years",
            format!(r#""frequency": "monthly", "bySetPosition": [-1], {weekdays}"#),
            "FREQ=MONTHLY;BYDAY=MO,TU,WE,TH,FR;BYSETPOS=-1",
            "2026-01-30",
            "2036-01-01",
        ),
        ("yearly, 50 years", r#""frequency": "yearly""#.to_string(), "FREQ=YEARLY", "2026-01-01", "2076-01-01"),
    ]
    .map(|(name, rule, short, from, to)| {
        let start = format!("{from}T09:00:00");
        let text = in_zone(&start, "PT1H", &rule);
        (Workload::new(name, text, from, to).with_rule(short, &start), icalendar(&start, short))
    })
    .into()
}

/// An event in London with a length and one rule. Its start is looked up in the zone table; days of its length ask for a second look.
fn in_zone(start: &str, length: &str, rule: &str) -> String {
    let members = format!(r#", "timeZone": "Europe/London", "duration": "{length}", "recurrenceRules": "#);
    event(start, &format!(r#"{members}[{{"@type": "RecurrenceRule", {rule}}}]"#))
}

/// An event of one hour as an iCalendar text. libical knows its zone by this name, and reads it from the system once.
fn icalendar(start: &str, rule: &str) -> CString {
    let start = start.replace(['-', ':'], "");
    let lines = [
        "BEGIN:VCALENDAR",
        "VERSION:2.0",
        "PRODID:bench",
        "BEGIN:VEVENT",
        "UID:1",
        "DTSTAMP:20240101T000000Z",
        &format!("DTSTART;TZID=/freeassociation.sourceforge.net/Europe/London:{start}"),
        "DURATION:PT1H",
        &format!("RRULE:{rule}"),
        "END:VEVENT",
        "END:VCALENDAR",
        "",
    ];
    CString::new(lines.join("\r\n")).expect("the lines have no zero byte")
}

/// Each window is twice as long as the one before.
pub fn growing_windows() -> Vec<Workload> {
    let daily = recurring("2026-01-01T09:00:00", r#""frequency": "daily""#);
    let end = |years: i64| format!("{}-01-01", 2026 + years);
    [1, 2, 4, 8, 16, 32].map(|years| Workload::new(&format!("daily, {years} years"), daily.clone(), "2026-01-01", &end(years))).into()
}

/// In each list, each text is twice as long as the one before: overrides, then members, then an escaped text.
pub fn growing_texts() -> [Vec<Workload>; 3] {
    let texts = |name: &str, counts: [usize; 4], members: &dyn Fn(usize) -> String| {
        let text = |count: usize| event("2026-01-01T09:00:00", &members(count));
        counts.map(|count| Workload::new(&format!("{count} {name}"), text(count), "2026-01-01", "2027-01-01")).into()
    };
    [
        texts("overrides", [32, 64, 128, 256], &|count| texts::overrides(count, "")),
        texts("members", [1_000, 2_000, 4_000, 8_000], &texts::members),
        texts("escapes", [1_250, 2_500, 5_000, 10_000], &texts::escapes),
    ]
}
