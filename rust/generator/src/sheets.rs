//! Sheets: of closure calendars, and of any numbers.

use crate::instants::{self, WEEK};
use crate::random::Random;
use std::collections::BTreeSet;

/// The bytes of a record.
pub const RECORD_LENGTH: usize = 28;

/// What a record says.
#[derive(Clone, Copy, Debug, PartialEq, Eq)]
pub struct Row {
    pub id: i64,
    pub start: i64,
    pub end: i64,
    pub marks: u8,
}

/// The bytes of a sheet with some rows.
pub fn written(rows: &[Row]) -> Vec<u8> {
    let mut bytes: Vec<u8> = rows.iter().flat_map(record).collect();
    let (count, distance) = (rows.len() as u32, bytes.len() as u32);
    bytes.extend((RECORD_LENGTH as u16).to_le_bytes());
    bytes.extend(1u16.to_le_bytes());
    bytes.extend(count.to_le_bytes());
    bytes.extend(distance.to_le_bytes());
    bytes
}

fn record(row: &Row) -> [u8; RECORD_LENGTH] {
    let mut bytes = [0; RECORD_LENGTH];
    bytes[0..8].copy_from_slice(&row.id.to_le_bytes());
    bytes[8..16].copy_from_slice(&row.start.to_le_bytes());
    bytes[16..24].copy_from_slice(&row.end.to_le_bytes());
    bytes[24] = row.marks;
    bytes
}

/// Rows by id, with spans near a range of weeks in any order.
pub fn rows(range: (i64, i64), random: &mut Random) -> Vec<Row> {
    let count = if random.once_in(40) { 600 } else { random.pick(&[0, 1, 1, 2, 5, 30]) };
    let mut ids: Vec<i64> = (0..count).map(|_| instants::near(range, random)).collect();
    ids.sort_unstable();
    ids.dedup();
    let row = |id: i64| {
        // A record's id and its start are near each other, unless a patch has moved the start.
        let start = if random.once_in(2) { id } else { instants::near(range, random) };
        Row { id, start, end: end(start, range, random), marks: random.below(8) as u8 }
    };
    ids.into_iter().map(row).collect()
}

/// An end for a start: mostly some hours or days later, and often on a Monday or beside it.
fn end(start: i64, range: (i64, i64), random: &mut Random) -> i64 {
    let next_monday = instants::monday(start).saturating_add(WEEK);
    match random.below(12) {
        0 => start,
        1 => start.saturating_sub(random.pick(&[1, 3_600, WEEK, 3 * WEEK])),
        2 => start.saturating_add(1),
        3..=4 => next_monday.saturating_add(random.within(-1..=1)),
        5 => next_monday.saturating_add(random.within(0..=6) * WEEK + random.within(-1..=1)),
        6 => instants::near(range, random),
        _ => start.saturating_add(random.within(1..=10) * 43_200),
    }
}

/// So many rows by id, with any numbers.
pub fn any_rows(count: usize, random: &mut Random) -> Vec<Row> {
    let mut ids = BTreeSet::new();
    while ids.len() < count {
        ids.insert(any_number(random));
    }
    let row = |id: i64| Row { id, start: any_number(random), end: any_number(random), marks: random.below(8) as u8 };
    ids.into_iter().map(row).collect()
}

/// A number of today's times, one near 0, one where another byte begins, or any other.
fn any_number(random: &mut Random) -> i64 {
    match random.below(8) {
        0 => random.pick(&[i64::MIN, i64::MIN + 1, i64::MAX - 1, i64::MAX]),
        1 => random.pick(&[-1, 0, 255, 256, -256, -257, 65_535, 65_536, 1 << 31, 1 << 32, -(1 << 32)]),
        2..=3 => random.within(-300..=300),
        4..=6 => random.within(1_700_000_000..=1_900_000_000),
        _ => random.next() as i64,
    }
}
