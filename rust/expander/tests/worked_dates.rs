//! The worked dates of document 01 that are about bytes and UTC; those about recurrence are among the generator's examples.

mod support;
use support::{event, seconds};

const WIDEST: (i64, i64) = (-11_644_473_600, 253_370_764_800);
const EMPTY: [u8; 12] = [0x1c, 0, 1, 0, 0, 0, 0, 0, 0, 0, 0, 0];

/// The UTC start of the only record.
fn utc_start(start: &str, zone: &str, initial: i64, instants: &[i64], offsets: &[i64]) -> i64 {
    let text = event(start, &format!(r#", "timeZone": "{zone}""#));
    let mut buffer = [0; 40];
    let answer = expander::expand(text.as_bytes(), zone.as_bytes(), initial, instants, offsets, WIDEST.0, WIDEST.1, &mut buffer);
    assert_eq!(answer, (0, 40));
    i64::from_le_bytes(buffer[8..16].try_into().unwrap())
}

#[test]
fn the_forty_bytes() {
    let text = event("2018-01-15T13:00:00", r#", "timeZone": "America/New_York", "duration": "PT1H""#);
    let mut buffer = [0xaa; 50];
    let answer = expander::expand(text.as_bytes(), b"America/New_York", -18_000, &[], &[], WIDEST.0, WIDEST.1, &mut buffer);
    assert_eq!(answer, (0, 40));
    let expected = "D0A55C5A00000000 20EC5C5A00000000 30FA5C5A00000000 01000000 1C000100 01000000 1C000000 AAAAAAAAAAAAAAAAAAAA";
    let shown: String = buffer.iter().map(|byte| format!("{byte:02X}")).collect();
    assert_eq!(shown, expected.replace(' ', ""));
}

#[test]
fn overlap_and_gap_use_the_offset_before() {
    let west = |start| utc_start(start, "America/Los_Angeles", -25_200, &[1_604_221_200], &[-28_800]);
    assert_eq!(west("2020-11-01T01:30:00"), seconds("2020-11-01T08:30:00"));
    assert_eq!(west("2020-11-01T02:00:00"), seconds("2020-11-01T10:00:00"));
    let spring = seconds("2020-10-03T16:00:00");
    let south = utc_start("2020-10-04T02:30:00", "Australia/Melbourne", 36_000, &[spring], &[39_600]);
    assert_eq!(south, seconds("2020-10-03T16:30:00"));
}

#[test]
fn window_with_equal_ends() {
    let text = event("2018-01-15T13:00:00", "");
    let expand = |buffer: &mut [u8]| expander::expand(text.as_bytes(), b"", 0, &[], &[], 0, 0, buffer);
    let mut enough = [0xaa; 12];
    assert_eq!(expand(&mut enough), (0, 12));
    assert_eq!(enough, EMPTY);
    let mut short = [0xaa; 11];
    assert_eq!(expand(&mut short), (13, 0));
    assert_eq!(short, [0xaa; 11]);
}
