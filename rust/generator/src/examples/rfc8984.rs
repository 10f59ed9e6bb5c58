//! The examples of RFC 8984, section 6, inside the profile.

use super::{event, Example, Examples};
use crate::dates::{self, DAY};

/// Adds all of them.
pub fn add(list: &mut Examples) {
    let simple = r#", "title": "Some event", "timeZone": "America/New_York", "duration": "PT1H""#;
    list.add_ids(&event("2020-01-15T13:00:00", simple), "9998-12-31", &["2020-01-15T13:00:00"]);
    let all_day = r#", "title": "April Fool's Day", "showWithoutTime": true, "duration": "P1D",
        "recurrenceRules": [{"@type": "RecurrenceRule", "frequency": "yearly"}]"#;
    let april = ["1900-04-01T00:00:00", "1901-04-01T00:00:00", "1902-04-01T00:00:00", "1903-04-01T00:00:00"];
    list.add_ids(&event("1900-04-01T00:00:00", all_day), "1904-01-01", &april);
    let yoga = r#", "duration": "PT30M", "recurrenceRules": [{"@type": "RecurrenceRule", "frequency": "daily"}]"#;
    list.add_ids(&event("2020-02-28T07:00:00", yoga), "2020-03-02", &["2020-02-28T07:00:00", "2020-02-29T07:00:00", "2020-03-01T07:00:00"]);
    list.list.push(course());
}

/// 6.9: a course with an introduction before it, a day without it, and an exam that is moved.
pub const COURSE: &str = r#"{"@type": "Event", "uid": "1", "updated": "2020-01-01T00:00:00Z", "title": "Calculus I",
    "start": "2020-01-08T09:00:00", "timeZone": "Europe/London", "duration": "PT1H30M",
    "locations": {"0dfb": {"@type": "Location", "title": "Math lab room 1", "description": "Math Lab I, Department of Mathematics"}},
    "recurrenceRules": [{"@type": "RecurrenceRule", "frequency": "weekly", "until": "2020-06-24T09:00:00"}],
    "recurrenceOverrides": {
        "2020-01-07T14:00:00": {"title": "Introduction to Calculus I (optional)"},
        "2020-04-01T09:00:00": {"excluded": true},
        "2020-06-25T09:00:00": {"title": "Calculus I Exam", "start": "2020-06-25T10:00:00", "duration": "PT2H",
            "locations": {"84d6": {"@type": "Location", "title": "Big Auditorium", "description": "Big Auditorium, Other Road"}}}}}"#;

fn course() -> Example {
    let first = dates::read("2020-01-08T09:00:00");
    let mut ids = vec![dates::read("2020-01-07T14:00:00")];
    ids.extend((0..25).map(|week| first + week * 7 * DAY).filter(|id| *id != dates::read("2020-04-01T09:00:00")));
    ids.push(dates::read("2020-06-25T09:00:00"));
    Example { text: COURSE.to_string(), end: dates::read("9998-12-31"), ids }
}
