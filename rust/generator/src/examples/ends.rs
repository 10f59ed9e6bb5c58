//! Events with the UTC times of their occurrences, by the steps of request 2: "add weeks and days to the local start, convert to UTC, add the
//! hours, minutes and seconds as absolute time".
//!
//! The times in real zones were found by Python's `zoneinfo`, which in gaps and overlaps takes the offset before the change:
//!
//! ```text
//! local = datetime.fromisoformat(start)
//! utc = lambda local: local.replace(tzinfo=ZoneInfo(zone)).astimezone(timezone.utc)
//! print(utc(local), utc(local + timedelta(days=days)) + timedelta(seconds=seconds))
//! ```
//!
//! Those in made-up zones, and those after 9998, were worked by hand.

use super::event;
use crate::dates::read;
use crate::tables::ZoneNumbers;

/// An event, a zone table, and the start and the end of each record in UTC.
#[derive(Clone, Debug)]
pub struct Worked {
    pub text: String,
    pub zone: ZoneNumbers,
    pub times: Vec<(i64, i64)>,
}

/// All of them.
pub fn all() -> Vec<Worked> {
    let mut list = Vec::new();
    add(&mut list, &london(), &LONDON);
    add(&mut list, &new_york(), &NEW_YORK);
    add(&mut list, &lord_howe(), &LORD_HOWE);
    add(&mut list, &apia(), &APIA);
    add(&mut list, &jump_forward(), &JUMP_FORWARD);
    add(&mut list, &jump_back(), &JUMP_BACK);
    add(&mut list, &widest_jump(), &WIDEST_JUMP);
    list.extend(overrides());
    list.extend(floating());
    list.extend(after_9998());
    list
}

/// A start, a length, and the start and the end in UTC.
type Row = (&'static str, &'static str, &'static str, &'static str);

/// Adds events of one occurrence in a zone.
fn add(list: &mut Vec<Worked>, zone: &ZoneNumbers, rows: &[Row]) {
    for (start, length, utc_start, utc_end) in rows {
        let text = in_zone(zone, start, length, "");
        list.push(Worked { text, zone: zone.clone(), times: vec![(read(utc_start), read(utc_end))] });
    }
}

/// An event in a zone, with further members that begin with a comma.
fn in_zone(zone: &ZoneNumbers, start: &str, length: &str, members: &str) -> String {
    let name = String::from_utf8_lossy(&zone.name);
    event(start, &format!(r#", "timeZone": "{name}", "duration": "{length}"{members}"#))
}

/// A zone table of instants in UTC and the offsets from them on.
fn zone(name: &str, initial_offset: i64, entries: &[(&str, i64)]) -> ZoneNumbers {
    let (instants, offsets) = entries.iter().map(|(instant, offset)| (read(instant), *offset)).unzip();
    ZoneNumbers { name: name.as_bytes().to_vec(), initial_offset, instants, offsets }
}

fn london() -> ZoneNumbers {
    zone("Europe/London", 0, &[("2026-03-29T01:00:00", 3_600), ("2026-10-25T01:00:00", 0), ("2027-03-28T01:00:00", 3_600)])
}

#[rustfmt::skip]
const LONDON: [Row; 24] = [
    // A day over the change is an hour short in spring and an hour long in autumn; 24 hours are 24 hours.
    ("2026-03-29T00:00:00", "P1D", "2026-03-29T00:00:00", "2026-03-29T23:00:00"),
    ("2026-03-28T12:00:00", "P1D", "2026-03-28T12:00:00", "2026-03-29T11:00:00"),
    ("2026-10-24T12:00:00", "P1D", "2026-10-24T11:00:00", "2026-10-25T12:00:00"),
    ("2026-03-28T12:00:00", "PT24H", "2026-03-28T12:00:00", "2026-03-29T12:00:00"),
    ("2026-10-24T12:00:00", "PT24H", "2026-10-24T11:00:00", "2026-10-25T11:00:00"),
    // Both parts: only the days are moved in local time.
    ("2026-03-27T12:00:00", "P1DT24H", "2026-03-27T12:00:00", "2026-03-29T12:00:00"),
    ("2026-03-27T12:00:00", "P2D", "2026-03-27T12:00:00", "2026-03-29T11:00:00"),
    ("2026-03-28T12:00:00", "P1DT24H", "2026-03-28T12:00:00", "2026-03-30T11:00:00"),
    ("2026-03-25T12:00:00", "P1W2DT3H", "2026-03-25T12:00:00", "2026-04-03T14:00:00"),
    ("2026-10-20T12:00:00", "P1W2DT3H", "2026-10-20T11:00:00", "2026-10-29T15:00:00"),
    // A day that ends in the gap, and on either side of it.
    ("2026-03-28T00:59:59", "P1D", "2026-03-28T00:59:59", "2026-03-29T00:59:59"),
    ("2026-03-28T01:30:00", "P1D", "2026-03-28T01:30:00", "2026-03-29T01:30:00"),
    ("2026-03-28T01:30:00", "P1DT1S", "2026-03-28T01:30:00", "2026-03-29T01:30:01"),
    ("2026-03-28T01:59:59", "P1D", "2026-03-28T01:59:59", "2026-03-29T01:59:59"),
    ("2026-03-28T02:00:00", "P1D", "2026-03-28T02:00:00", "2026-03-29T01:00:00"),
    // A day that starts in the gap.
    ("2026-03-29T01:30:00", "P1D", "2026-03-29T01:30:00", "2026-03-30T00:30:00"),
    // A day that starts in the overlap, and days that end in it or after it.
    ("2026-10-25T01:30:00", "P1D", "2026-10-25T00:30:00", "2026-10-26T01:30:00"),
    ("2026-10-24T01:30:00", "P1D", "2026-10-24T00:30:00", "2026-10-25T00:30:00"),
    ("2026-10-24T01:59:59", "P1D", "2026-10-24T00:59:59", "2026-10-25T00:59:59"),
    ("2026-10-24T02:00:00", "P1D", "2026-10-24T01:00:00", "2026-10-25T02:00:00"),
    // The longest: over three changes, then over two of them.
    ("2026-03-28T12:00:00", "P366D", "2026-03-28T12:00:00", "2027-03-29T11:00:00"),
    ("2026-03-28T12:00:00", "PT8784H", "2026-03-28T12:00:00", "2027-03-29T12:00:00"),
    ("2026-03-29T12:00:00", "P366D", "2026-03-29T11:00:00", "2027-03-30T11:00:00"),
    ("2026-03-29T12:00:00", "PT0S", "2026-03-29T11:00:00", "2026-03-29T11:00:00"),
];

fn new_york() -> ZoneNumbers {
    zone("America/New_York", -18_000, &[("2026-03-08T07:00:00", -14_400), ("2026-11-01T06:00:00", -18_000)])
}

#[rustfmt::skip]
const NEW_YORK: [Row; 4] = [
    ("2026-03-07T12:00:00", "P1D", "2026-03-07T17:00:00", "2026-03-08T16:00:00"),
    ("2026-10-31T12:00:00", "P1D", "2026-10-31T16:00:00", "2026-11-01T17:00:00"),
    ("2026-03-07T02:30:00", "P1D", "2026-03-07T07:30:00", "2026-03-08T07:30:00"),
    ("2026-11-01T01:30:00", "P1D", "2026-11-01T05:30:00", "2026-11-02T06:30:00"),
];

/// Its clocks change by half an hour.
fn lord_howe() -> ZoneNumbers {
    zone("Australia/Lord_Howe", 39_600, &[("2026-04-04T15:00:00", 37_800), ("2026-10-03T15:30:00", 39_600)])
}

#[rustfmt::skip]
const LORD_HOWE: [Row; 5] = [
    ("2026-04-04T12:00:00", "P1D", "2026-04-04T01:00:00", "2026-04-05T01:30:00"),
    ("2026-10-03T12:00:00", "P1D", "2026-10-03T01:30:00", "2026-10-04T01:00:00"),
    ("2026-10-03T02:15:00", "P1D", "2026-10-02T15:45:00", "2026-10-03T15:45:00"),
    ("2026-04-04T01:45:00", "P1D", "2026-04-03T14:45:00", "2026-04-04T14:45:00"),
    ("2026-04-05T01:45:00", "P1D", "2026-04-04T14:45:00", "2026-04-05T15:15:00"),
];

/// It left out 30 December 2011. A day that starts then ends as it starts.
fn apia() -> ZoneNumbers {
    zone("Pacific/Apia", -36_000, &[("2011-12-30T10:00:00", 50_400)])
}

#[rustfmt::skip]
const APIA: [Row; 4] = [
    ("2011-12-29T09:00:00", "P1D", "2011-12-29T19:00:00", "2011-12-30T19:00:00"),
    ("2011-12-29T09:00:00", "P2D", "2011-12-29T19:00:00", "2011-12-30T19:00:00"),
    ("2011-12-29T09:00:00", "PT48H", "2011-12-29T19:00:00", "2011-12-31T19:00:00"),
    ("2011-12-30T09:00:00", "P1D", "2011-12-30T19:00:00", "2011-12-30T19:00:00"),
];

/// The clock goes from 2026-06-01T00:00:00 to 2026-06-02T01:00:00, 25 hours on.
fn jump_forward() -> ZoneNumbers {
    zone("Jump", -43_200, &[("2026-06-01T12:00:00", 46_800)])
}

#[rustfmt::skip]
const JUMP_FORWARD: [Row; 6] = [
    // "Where a jump puts the end before the start, it is written as calculated."
    ("2026-06-02T00:00:00", "P1D", "2026-06-02T12:00:00", "2026-06-02T11:00:00"),
    ("2026-06-02T00:00:00", "P1DT1H", "2026-06-02T12:00:00", "2026-06-02T12:00:00"),
    ("2026-06-02T00:00:00", "P1DT1H1M", "2026-06-02T12:00:00", "2026-06-02T12:01:00"),
    // A day that ends just after the gap, one that ends in its last second, and two days over it.
    ("2026-06-01T01:00:00", "P1D", "2026-06-01T13:00:00", "2026-06-01T12:00:00"),
    ("2026-06-01T00:59:59", "P1D", "2026-06-01T12:59:59", "2026-06-02T12:59:59"),
    ("2026-05-31T23:59:59", "P2D", "2026-06-01T11:59:59", "2026-06-02T10:59:59"),
];

/// The clock goes from 2026-06-02T01:00:00 back to 2026-06-01T00:00:00.
fn jump_back() -> ZoneNumbers {
    zone("Jump", 46_800, &[("2026-06-01T12:00:00", -43_200)])
}

#[rustfmt::skip]
const JUMP_BACK: [Row; 3] = [
    ("2026-06-01T12:00:00", "P1D", "2026-05-31T23:00:00", "2026-06-03T00:00:00"),
    ("2026-06-01T00:59:59", "P1D", "2026-05-31T11:59:59", "2026-06-01T11:59:59"),
    ("2026-06-01T01:00:00", "P1D", "2026-05-31T12:00:00", "2026-06-02T13:00:00"),
];

/// From the least offset to the largest one, at 1970-01-01T00:00:00Z. The gap ends before 1970-01-01T23:59:59.
fn widest_jump() -> ZoneNumbers {
    zone("Jump", -86_399, &[("1970-01-01T00:00:00", 86_399)])
}

#[rustfmt::skip]
const WIDEST_JUMP: [Row; 2] = [
    ("1970-01-01T23:59:58", "P1D", "1970-01-02T23:59:57", "1970-01-01T23:59:59"),
    ("1970-01-01T23:59:58", "PT24H", "1970-01-02T23:59:57", "1970-01-03T23:59:57"),
];

/// Three days in London: an hour or a day long, with other lengths and other starts of single dates.
fn overrides() -> [Worked; 2] {
    let times = |times: &[(&str, &str)]| times.iter().map(|(start, end)| (read(start), read(end))).collect();
    let daily = |length: &str, overrides: &str| {
        let rules = r#"[{"@type": "RecurrenceRule", "frequency": "daily", "count": 3}]"#;
        let members = format!(r#", "recurrenceRules": {rules}, "recurrenceOverrides": {{{overrides}}}"#);
        in_zone(&london(), "2026-03-27T12:00:00", length, &members)
    };
    let longer = daily("PT1H", r#""2026-03-28T12:00:00": {"duration": "P1D"}"#);
    let longer_times = times(&[
        ("2026-03-27T12:00:00", "2026-03-27T13:00:00"),
        ("2026-03-28T12:00:00", "2026-03-29T11:00:00"),
        ("2026-03-29T11:00:00", "2026-03-29T12:00:00"),
    ]);
    let moved = r#""2026-03-26T12:00:00": {"duration": null}, "2026-03-28T12:00:00": {"duration": "PT24H"},
        "2026-03-29T12:00:00": {"start": "2026-03-28T20:00:00"}"#;
    let moved_times = times(&[
        ("2026-03-26T12:00:00", "2026-03-26T12:00:00"),
        ("2026-03-27T12:00:00", "2026-03-28T12:00:00"),
        ("2026-03-28T12:00:00", "2026-03-29T12:00:00"),
        ("2026-03-28T20:00:00", "2026-03-29T19:00:00"),
    ]);
    [Worked { text: longer, zone: london(), times: longer_times }, Worked { text: daily("P1D", moved), zone: london(), times: moved_times }]
}

/// An event without a zone, beside the table of one.
fn floating() -> [Worked; 2] {
    ["P1D", "PT24H"].map(|length| {
        let text = event("2026-03-28T12:00:00", &format!(r#", "duration": "{length}""#));
        Worked { text, zone: london(), times: vec![(read("2026-03-28T12:00:00"), read("2026-03-29T12:00:00"))] }
    })
}

/// 10000-01-01T23:59:59: 366 days after the last second of 9998.
const FURTHEST: i64 = 253_402_387_199;

/// Lengths that lead into 9999 and on to 10000-01-01, without a zone, and in one that changes there from an hour to none.
fn after_9998() -> [Worked; 4] {
    let ahead = ZoneNumbers { name: b"Z".to_vec(), initial_offset: 3_600, instants: vec![FURTHEST - 3_600], offsets: vec![0] };
    let (last, before_last) = ("9998-12-31T23:59:59", "9998-12-31T23:59:58");
    let (start, start_before) = (253_370_764_799, 253_370_764_798);
    let floating = event(last, r#", "duration": "P366D""#);
    [
        Worked { text: floating, zone: ahead.clone(), times: vec![(start, FURTHEST)] },
        Worked { text: in_zone(&ahead, last, "P366D", ""), zone: ahead.clone(), times: vec![(start - 3_600, FURTHEST)] },
        Worked {
            text: in_zone(&ahead, before_last, "P366D", ""),
            zone: ahead.clone(),
            times: vec![(start_before - 3_600, FURTHEST - 1 - 3_600)],
        },
        Worked { text: in_zone(&ahead, last, "P1DT8760H", ""), zone: ahead, times: vec![(start - 3_600, FURTHEST - 3_600)] },
    ]
}
