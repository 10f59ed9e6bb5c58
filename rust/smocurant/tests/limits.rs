//! The library at the limits of document 01: zone tables, windows, buffers, the widest window, and the stack that a call takes.

use generator::dates;
use generator::examples::{event, recurring};
use smocurant::{expand, expand_to_vec, raw, time, Status, Transition, Window, ZoneTable};

const FIRST: i64 = -11_644_473_600;
const LAST: i64 = 253_370_764_800;

/// The answer of a call with a table and a window, by the entry point over numbers; the one over structs must say the same.
fn answer(initial: i64, instants: &[i64], offsets: &[i64], window: (i64, i64)) -> u32 {
    let text = event("2024-01-01T00:00:00", "");
    let (answer, _) = raw::expand(text.as_bytes(), b"", initial, instants, offsets, window.0, window.1, &mut [0; 40]);
    if instants.len() == offsets.len() {
        let entries: Vec<Transition> = instants.iter().zip(offsets).map(|(&instant, &offset)| Transition { instant, offset }).collect();
        assert_eq!(raw::expand_entries(text.as_bytes(), b"", initial, &entries, window.0, window.1, &mut [0; 40]).0, answer);
    }
    answer
}

#[test]
fn zone_tables() {
    let judge = |initial: i64, instants: &[i64], offsets: &[i64]| answer(initial, instants, offsets, (FIRST, LAST));
    let far = 1i64 << 40;
    let run = |count: i64| (0..count).collect::<Vec<_>>();
    assert_eq!([judge(86_399, &[], &[]), judge(-86_399, &[], &[]), judge(0, &[-far, far], &[86_399, -86_399])], [0; 3]);
    assert_eq!([judge(86_400, &[], &[]), judge(-86_400, &[], &[]), judge(i64::MIN, &[i64::MAX], &[i64::MAX])], [10; 3]);
    assert_eq!([judge(0, &[-far - 1], &[0]), judge(0, &[far + 1], &[0]), judge(0, &[0], &[86_400])], [10; 3]);
    assert_eq!([judge(0, &[0], &[]), judge(0, &[], &[0]), judge(0, &[0, 0], &[1, 2]), judge(0, &[1, 0], &[1, 2])], [10; 4]);
    // Marks of 3,600 both; then one second more.
    assert_eq!([judge(3_600, &[0, 3_600], &[0, 0]), judge(3_600, &[0, 3_601], &[0, 0])], [10, 0]);
    assert_eq!([judge(0, &run(1_024), &[0; 1_024]), judge(0, &run(1_025), &[0; 1_025])], [0, 10]);
}

#[test]
fn windows() {
    let judge = |window| answer(0, &[], &[], window);
    assert_eq!([(FIRST, LAST), (FIRST, FIRST), (LAST, LAST), (0, 0)].map(judge), [0; 4]);
    assert_eq!([(FIRST - 1, LAST), (FIRST, LAST + 1), (1, 0), (i64::MIN, i64::MAX), (i64::MAX, i64::MIN)].map(judge), [11; 5]);
}

#[test]
fn overlap_and_gap_use_the_offset_before() {
    let start = |start: &str, zone: &ZoneTable| {
        let text = event(start, &format!(r#", "timeZone": "{}""#, zone.name()));
        let table = expand_to_vec(text.as_bytes(), zone, Window::WIDEST).unwrap();
        time::written(table.records().next().unwrap().start)
    };
    let west = ZoneTable::new("America/Los_Angeles", -25_200, [Transition { instant: 1_604_221_200, offset: -28_800 }]);
    assert_eq!(start("2020-11-01T01:30:00", &west), "2020-11-01T08:30:00");
    assert_eq!(start("2020-11-01T02:00:00", &west), "2020-11-01T10:00:00");
    let spring = Transition { instant: time::read("2020-10-03T16:00:00").unwrap(), offset: 39_600 };
    let south = ZoneTable::new("Australia/Melbourne", 36_000, [spring]);
    assert_eq!(start("2020-10-04T02:30:00", &south), "2020-10-03T16:30:00");
}

#[test]
fn a_window_with_equal_ends() {
    let text = event("2018-01-15T13:00:00", "");
    let window = Window::new(0, 0).unwrap();
    let mut buffer = [0xaa; 12];
    assert_eq!(expand(text.as_bytes(), &ZoneTable::floating(), window, &mut buffer).map(|table| table.len()), Ok(0));
    assert_eq!(buffer, [0x1c, 0, 1, 0, 0, 0, 0, 0, 0, 0, 0, 0]);
    let mut short = [0xaa; 11];
    assert_eq!(expand(text.as_bytes(), &ZoneTable::floating(), window, &mut short), Err(Status::Buffer));
    assert_eq!(short, [0xaa; 11]);
}

/// Every day of the profile, by both programs.
#[test]
fn the_widest_window() {
    let text = recurring("1601-01-01T09:00:00", r#""frequency": "daily""#);
    let table = expand_to_vec(text.as_bytes(), &ZoneTable::floating(), Window::WIDEST).unwrap();
    assert_eq!(table.len(), 3_067_306);
    let mut expected = vec![0; table.as_bytes().len()];
    let other = expander::expand(text.as_bytes(), b"", 0, &[], &[], FIRST, LAST, &mut expected);
    assert_eq!(other, (0, expected.len() as u64));
    assert!(table.as_bytes() == expected);
    let ids = (FIRST + 9 * 3_600..LAST).step_by(dates::DAY as usize);
    assert!(table.records().map(|record| record.id).eq(ids));
}

/// The calls on texts that nest as deep and name as many members as they may, in threads of 1 MiB. More would end the program.
#[test]
fn a_call_fits_in_a_small_stack() {
    let members: Vec<String> = (0..7_500).map(|place| format!("\"{place:x}\":0")).collect();
    let nested = format!("{}{{{}}}{}", r#"{"a":"#.repeat(14), members.join(","), "}".repeat(14));
    let day = |day: i64| format!("\"{}\":{{}}", dates::written(1_767_225_600 + day * dates::DAY));
    let overrides: Vec<String> = (0..256).map(day).collect();
    for members in [format!(r#", "x": {nested}"#), format!(r#", "recurrenceOverrides": {{{}}}"#, overrides.join(","))] {
        let text = event("2026-01-01T00:00:00", &members);
        let small = std::thread::Builder::new().stack_size(1 << 20);
        let call = move || {
            let entries: Vec<Transition> = (0..1_024).map(|place| Transition { instant: place * 100_000, offset: 0 }).collect();
            let (answer, length) = raw::expand_entries(text.as_bytes(), b"", 0, &entries, FIRST, LAST, &mut vec![0; 10_000]);
            assert_eq!((answer, raw::title(text.as_bytes(), 1_767_225_600)), (0, (0, 0, 0)));
            assert_eq!(raw::locate(text.as_bytes()), (0, 0));
            length
        };
        assert!(small.spawn(call).unwrap().join().unwrap() >= 40);
    }
}
