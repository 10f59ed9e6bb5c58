//! Zone tables and windows.

use crate::dates::{DAY, END, FIRST};
use crate::model::Model;
use crate::random::Random;

/// Offsets lie so far from UTC at most.
const LARGEST_OFFSET: i64 = 86_399;

/// The numbers of a zone table.
#[derive(Clone, Debug, PartialEq, Eq)]
pub struct ZoneNumbers {
    pub name: Vec<u8>,
    pub initial_offset: i64,
    pub instants: Vec<i64>,
    pub offsets: Vec<i64>,
}

impl ZoneNumbers {
    /// A table for an event, with changes around a local time that is turned to UTC; some are invalid, some have another name.
    pub fn random(model: &Model, random: &mut Random) -> ZoneNumbers {
        let name = match (&model.zone, random.below(16)) {
            (_, 0) => "Europe/Londo".to_string(),
            (Some(zone), 1) => format!("{zone} "),
            (Some(zone), _) => zone.to_string(),
            (None, _) => String::new(),
        };
        let mut zone = regular(model.turned_to_utc(random), random);
        zone.name = name.into_bytes();
        if random.once_in(12) {
            spoil(&mut zone, random);
        }
        zone
    }
}

/// Two changes a year around a local time, or one every few days; or none, or as many as are allowed.
fn regular(local: i64, random: &mut Random) -> ZoneNumbers {
    let (initial_offset, other) = offsets(random);
    let count = random.pick(&[0, 0, 1, 2, 20, 20, 1_024]);
    // 182 days are whole weeks.
    let spacing = DAY * random.pick(&[182, 182, 182, 7, 2, 1]);
    // Half of the tables have a mark at the local time, or a second beside it.
    let beside = if random.once_in(2) { random.within(-1..=1) } else { random.within(-3 * DAY..=3 * DAY) };
    let first = local - count / 2 * spacing - initial_offset.max(other) + beside;
    let instants = (0..count).map(|place| first + place * spacing).collect();
    let offsets = (0..count).map(|place| if place % 2 == 0 { other } else { initial_offset }).collect();
    ZoneNumbers { name: Vec::new(), initial_offset, instants, offsets }
}

/// The two offsets of a table: an hour or some seconds apart, and in one table of three a day or more.
fn offsets(random: &mut Random) -> (i64, i64) {
    if random.once_in(3) {
        let jump = random.pick(&[DAY, DAY + 1, 25 * 3_600, 36 * 3_600, 2 * LARGEST_OFFSET]);
        let lower = random.within(-LARGEST_OFFSET..=LARGEST_OFFSET - jump);
        return if random.once_in(2) { (lower, lower + jump) } else { (lower + jump, lower) };
    }
    let initial = random.within(-12..=14) * 3_600 + random.within(-1..=1) * random.within(0..=1_800);
    (initial, initial + random.pick(&[3_600, -3_600, 1_800, 7]))
}

/// A change that makes most tables invalid.
fn spoil(zone: &mut ZoneNumbers, random: &mut Random) {
    let last = zone.instants.last().copied().unwrap_or(0);
    match random.below(7) {
        0 => zone.initial_offset = random.pick(&[86_399, 86_400, -86_399, -86_400, i64::MIN, i64::MAX]),
        1 => zone.instants.push(last + 1),
        2 => zone.offsets.push(0),
        3 => {
            zone.instants.push(random.pick(&[last, 1 << 40, (1 << 40) + 1, -(1 << 40) - 1, i64::MAX, i64::MIN]));
            zone.offsets.push(0);
        }
        // Marks: after a fall of two hours, the next transition's mark is the same two hours later.
        4 => {
            let shift = random.within(7_198..=7_202);
            let fallen = zone.offsets.last().copied().unwrap_or(zone.initial_offset) - 7_200;
            zone.instants.extend([last + 200 * DAY, last + 200 * DAY + shift]);
            zone.offsets.extend([fallen, fallen]);
        }
        5 => zone.instants.reverse(),
        _ => {
            zone.instants = (0..1_025).collect();
            zone.offsets = vec![zone.initial_offset; 1_025];
        }
    }
}

/// A window around an event's start; wide ones where that gives no endless list.
pub fn window(model: &Model, random: &mut Random) -> (i64, i64) {
    let start = model.start;
    let wide = if model.is_short() { 12 } else { 1_000 };
    if random.once_in(wide) {
        return (FIRST, END);
    }
    let (from, to) = match random.below(10) {
        0 => (start, start + random.within(0..=1)),
        1 => (start + 1, start + 8 * DAY + random.within(0..=1)),
        2 => (start - random.within(0..=900) * DAY, start),
        3..=6 => (start - random.within(0..=90) * DAY, start + random.within(0..=800) * DAY),
        7 => (start + 200 * DAY, start + 2_000 * DAY),
        8 => (start + random.within(99_000..=100_000) * DAY, start + 100_365 * DAY),
        _ => return random.pick(&[(FIRST - 1, start), (start, END + 1), (1, 0), (i64::MIN, i64::MAX), (0, 0), (END, END), (FIRST, FIRST)]),
    };
    (from.clamp(FIRST, END), to.clamp(FIRST, END))
}
