//! Limits of windows and zone tables from both sides, and the longest expansion.

mod support;
use expander::{Refusal, Window, Zone};
use support::{by_day, ids_until, recurring, seconds};

#[test]
fn windows() {
    let (first, last) = (-11_644_473_600, 253_370_764_800);
    for (start, end) in [(first, last), (first, first), (last, last), (0, 0)] {
        assert!(Window::new(start, end).is_ok());
    }
    for (start, end) in [(first - 1, last), (first, last + 1), (1, 0), (i64::MIN, i64::MAX), (i64::MAX, i64::MIN)] {
        assert_eq!(Window::new(start, end), Err(Refusal::Window));
    }
    let daily = recurring("2024-01-01T09:00:00", r#""frequency": "daily""#);
    let event = expander::Event::read(daily.as_bytes()).unwrap();
    let id = seconds("2024-03-01T09:00:00");
    assert_eq!(event.ids(id..id + 86_400), [id]);
    assert_eq!(event.ids(id + 1..id + 86_400), []);
    assert_eq!(event.ids(id + 1..id + 86_401), [id + 86_400]);
}

#[test]
fn zone_tables() {
    let check = |initial: i64, instants: &[i64], offsets: &[i64]| Zone::new(b"", initial, instants, offsets).is_ok();
    assert!(check(86_399, &[], &[]) && check(-86_399, &[], &[]));
    assert!(!check(86_400, &[], &[]) && !check(-86_400, &[], &[]));
    let far = 1i64 << 40;
    assert!(check(0, &[-far, far], &[86_399, -86_399]));
    assert!(!check(0, &[-far - 1], &[0]) && !check(0, &[far + 1], &[0]) && !check(0, &[0], &[86_400]) && !check(0, &[0], &[i64::MIN]));
    assert!(!check(0, &[0], &[]) && !check(0, &[], &[0]) && !check(0, &[0, 0], &[1, 2]) && !check(0, &[1, 0], &[1, 2]));
    assert!(!check(i64::MIN, &[i64::MAX], &[i64::MAX]));
    // Marks of 3,600 both; then one second more.
    assert!(!check(3_600, &[0, 3_600], &[0, 0]) && check(3_600, &[0, 3_601], &[0, 0]));
    let run = |count: i64| (0..count).collect::<Vec<_>>();
    assert!(check(0, &run(1_024), &[0; 1_024]) && !check(0, &run(1_025), &[0; 1_025]));
}

#[test]
fn the_widest_window() {
    let daily = recurring("1601-01-01T00:00:00", r#""frequency": "daily""#);
    let ids = expander::Event::read(daily.as_bytes()).unwrap().ids(Window::widest().span());
    assert_eq!(ids.len(), 3_067_306);
    let rule = format!(r#""frequency": "yearly", "count": 9007199254740991, "byMonth": ["2"], "byMonthDay": [30], {}"#, by_day("mo"));
    assert_eq!(ids_until(&recurring("1601-01-01T00:00:00", &rule), "9998-12-31").len(), 1);
}
