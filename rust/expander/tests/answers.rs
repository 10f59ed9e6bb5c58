//! Every answer number. The texts for 1 to 9 and 20 to 26 are the generator's.

mod support;
use generator::examples::answers;
use support::{answer, event, seconds};

const START: &str = "2024-01-01T09:00:00";

#[test]
fn texts_alone() {
    for expected in answers::all() {
        let shown = String::from_utf8_lossy(&expected.text);
        assert_eq!(expander::locate(&expected.text), (expected.answer, expected.place), "{shown}");
        assert_eq!(answer(&expected.text), expected.answer, "{shown}");
    }
}

#[test]
fn zone_window_and_buffer() {
    let text = event(START, r#", "timeZone": "Europe/London""#);
    let mut buffer = [0; 40];
    let mut ask = |zone: &str, offset, window: (i64, i64), room: usize| {
        expander::expand(text.as_bytes(), zone.as_bytes(), offset, &[], &[], window.0, window.1, &mut buffer[..room])
    };
    let year = (seconds("2024-01-01"), seconds("2025-01-01"));
    assert_eq!(ask("Europe/London", 0, year, 40), (0, 40));
    assert_eq!(ask("Europe/Paris", 86_400, (1, 0), 0), (10, 0));
    assert_eq!(ask("Europe/Paris", 0, (1, 0), 0), (11, 0));
    assert_eq!(ask("Europe/Paris", 0, year, 0), (12, 0));
    assert_eq!(ask("Europe/Londo", 0, year, 0), (12, 0));
    assert_eq!(ask("Europe/London ", 0, year, 0), (12, 0));
    assert_eq!(ask("Europe/London", 0, year, 39), (13, 0));
}

#[test]
fn a_secret_event() {
    let text = event(START, r#", "timeZone": "Europe/London", "privacy": "secret", "title": "a""#);
    let mut buffer = [0; 12];
    let mut ask = |zone: &str, offset, window: (i64, i64), room: usize| {
        expander::expand(text.as_bytes(), zone.as_bytes(), offset, &[], &[], window.0, window.1, &mut buffer[..room])
    };
    assert_eq!(ask("Europe/Paris", 0, (0, 1), 12), (0, 12));
    assert_eq!(ask("Europe/Paris", 0, (0, 1), 11), (13, 0));
    assert_eq!(ask("Europe/Paris", 0, (1, 0), 11), (11, 0));
    assert_eq!(ask("Europe/Paris", 90_000, (1, 0), 11), (10, 0));
    assert_eq!(buffer, [0x1c, 0, 1, 0, 0, 0, 0, 0, 0, 0, 0, 0]);
    assert_eq!(expander::title(text.as_bytes(), seconds(START)), (14, 0, 0));
}
