//! Titles and descriptions.

mod support;
use expander::{Duration, Event};
use generator::examples::COURSE;
use support::{event, seconds};

#[test]
fn texts() {
    let private = r#", "title": "a\n", "description": "b", "privacy": "private""#;
    let ask = |members: &str, date: &str| expander::title(event("2024-01-01T09:00:00", members).as_bytes(), seconds(date));
    assert_eq!(ask(private, "2024-01-01T09:00:00"), (0, 0, 0));
    assert_eq!(ask(private, "2024-01-01T09:00:01"), (14, 0, 0));
    assert_eq!(ask(&private.replace("private", "public"), "2024-01-01T09:00:00").2, 3);
    assert_eq!(ask(&private.replace("private", "unheard-of"), "2024-01-01T09:00:00"), (0, 0, 0));
    assert_eq!(ask(r#", "title": """#, "2024-01-01T09:00:00"), (0, 0, 0));
    assert_eq!(ask(r#", "description": "b""#, "2024-01-01T09:00:00"), (0, 0, 0));
    let removed = r#", "title": "a", "recurrenceOverrides": {"2024-01-01T09:00:00": {"title": null}}"#;
    assert_eq!(ask(removed, "2024-01-01T09:00:00"), (0, 0, 0));
    let text = event("2024-01-01T09:00:00", "");
    for date in [i64::MIN, -1, 0, i64::MAX] {
        assert_eq!(expander::description(text.as_bytes(), date), (14, 0, 0));
    }
}

/// RFC 8984, 6.9: a course with an introduction before it, a day without it, and an exam that is moved.
#[test]
fn texts_and_times_of_overrides() {
    let title = |date: &str| {
        let (answer, start, length) = expander::title(COURSE.as_bytes(), seconds(date));
        (answer, &COURSE[start as usize..(start + length) as usize])
    };
    assert_eq!(title("2020-01-07T14:00:00"), (0, "Introduction to Calculus I (optional)"));
    assert_eq!(title("2020-01-08T09:00:00"), (0, "Calculus I"));
    assert_eq!(title("2020-04-01T09:00:00"), (14, ""));
    assert_eq!(title("2020-06-25T09:00:00"), (0, "Calculus I Exam"));
    assert_eq!(title("2020-06-25T10:00:00"), (14, ""));
    let exam = Event::read(COURSE.as_bytes()).unwrap().occurrence(seconds("2020-06-25T09:00:00"));
    assert_eq!((exam.start, exam.details.duration), (seconds("2020-06-25T10:00:00"), Duration { days: 0, seconds: 7_200 }));
}
