//! Replays: a log of uploads, the sheet of a closure calendar, and a range of weeks.

use crate::instants::{self, FIRST_MONDAY, LAST_MONDAY, WEEK};
use crate::random::Random;
use crate::sheet_damage;
use crate::sheets::{self, Row};

/// One replay. Most are right; some have several faults at once.
#[derive(Clone, Debug)]
pub struct Replay {
    /// The upload instants; perhaps out of order.
    pub log: Vec<i64>,
    /// The rows that the sheet was written from.
    pub rows: Vec<Row>,
    /// The sheet's bytes; perhaps damaged ones.
    pub sheet: Vec<u8>,
    /// The first Monday, and the one after the last week; perhaps an invalid range.
    pub range: (i64, i64),
}

impl Replay {
    /// The replay of a seed.
    pub fn new(seed: u64) -> Replay {
        let random = &mut Random::new(seed);
        let range = range(random);
        let mut log = log(range, random);
        if random.once_in(8) {
            disorder(&mut log, range, random);
        }
        let rows = sheets::rows(range, random);
        let sheet = if random.once_in(4) { sheet_damage::damaged(&rows, random) } else { sheets::written(&rows) };
        Replay { log, rows, sheet, range }
    }

    /// The number of weeks; of a range that is not one of weeks any number.
    pub fn weeks(&self) -> u64 {
        instants::weeks(self.range)
    }
}

/// A range of up to 60 weeks in most cases; some are longer, much longer, or no ranges of weeks.
fn range(random: &mut Random) -> (i64, i64) {
    let any = random.next() as i64;
    let near = random.pick(&[0, 1_767_225_600, -1_000_000_000, i64::MIN, i64::MAX, any]);
    let start = instants::monday(near.saturating_add(random.within(-20..=20) * WEEK));
    let weeks = random.pick(&[0, 1, 1, 2, 3, 3, 60, 60, 60, 450]);
    // An end after the last Monday of all becomes that Monday.
    let end = start.saturating_add(random.within(weeks / 2..=weeks) * WEEK).min(LAST_MONDAY);
    let beside = random.pick(&[1, -1, 86_400, -259_200, 345_600, 604_799, any]);
    match random.below(24) {
        0 => (start, end.saturating_add(beside)),
        1 => (start.saturating_add(beside), end),
        2 => (start.saturating_add(beside), end.saturating_add(beside)),
        3 => (end, start),
        4 => random.pick(&[(FIRST_MONDAY, LAST_MONDAY), (start, LAST_MONDAY), (FIRST_MONDAY, end), (LAST_MONDAY, FIRST_MONDAY)]),
        // The number of weeks is that of the range before, modulo 2^32.
        5 => (start, end.saturating_add((WEEK << 32) * random.within(1..=3)).min(LAST_MONDAY)),
        6 => random.pick(&[(i64::MIN, i64::MAX), (i64::MAX, i64::MIN), (i64::MIN, i64::MIN), (start, i64::MAX), (i64::MIN, end)]),
        _ => (start, end),
    }
}

/// An ordered log. Some of its uploads are at the same second.
fn log(range: (i64, i64), random: &mut Random) -> Vec<i64> {
    let count = if random.once_in(40) { 3_000 } else { random.pick(&[0, 1, 2, 10, 10, 100]) };
    let mut log: Vec<i64> = (0..random.within(0..=count)).map(|_| instants::near(range, random)).collect();
    if random.once_in(3) {
        let again: Vec<i64> = log.iter().copied().filter(|_| random.once_in(2)).collect();
        log.extend(again);
    }
    log.sort_unstable();
    log
}

/// Brings a log out of order, by much or by one upload at its start or its end.
fn disorder(log: &mut Vec<i64>, range: (i64, i64), random: &mut Random) {
    match random.below(5) {
        0 => log.reverse(),
        1 => random.shuffle(log),
        2 => log.insert(0, instants::near(range, random)),
        3 => log.push(log.last().map_or(0, |last| last.saturating_sub(1))),
        _ => {
            let place = random.index(log.len() + 1);
            log.insert(place, instants::near(range, random));
        }
    }
}

#[cfg(test)]
mod tests {
    use super::*;

    #[test]
    fn a_seed_gives_the_same_replay_again() {
        for seed in 0..200 {
            assert_eq!(format!("{:?}", Replay::new(seed)), format!("{:?}", Replay::new(seed)));
        }
    }
}
