//! Instants and Mondays in UTC.

use crate::random::Random;

/// Seconds of a week.
pub const WEEK: i64 = 604_800;

/// 1970-01-05T00:00:00Z, a Monday.
pub const MONDAY: i64 = 345_600;

/// The first and the last Monday of signed 64-bit numbers.
pub const FIRST_MONDAY: i64 = i64::MIN + 55_808;
pub const LAST_MONDAY: i64 = i64::MAX - 574_207;

/// The Monday at or before an instant, or the first of all.
pub fn monday(instant: i64) -> i64 {
    let since = (instant.rem_euclid(WEEK) - MONDAY).rem_euclid(WEEK);
    instant.checked_sub(since).unwrap_or(FIRST_MONDAY)
}

/// The whole weeks between two instants.
pub fn weeks((start, end): (i64, i64)) -> u64 {
    end.abs_diff(start) / WEEK.unsigned_abs()
}

/// An instant in a range of weeks or near it, often beside a Monday; seldom any other.
pub fn near(range: (i64, i64), random: &mut Random) -> i64 {
    let (start, end) = range;
    let weeks = weeks(range).min(500) as i64;
    let beside = random.within(-1..=1);
    match random.below(48) {
        0 => random.pick(&[i64::MIN, i64::MIN + 1, -1, 0, i64::MAX - 1, i64::MAX]),
        1 => random.pick(&[FIRST_MONDAY, LAST_MONDAY]).saturating_add(beside),
        2 => random.next() as i64,
        3..=5 => start.saturating_add(beside),
        6..=8 => end.saturating_add(beside),
        9..=12 => start.saturating_sub(random.within(1..=3 * WEEK)),
        13..=16 => end.saturating_add(random.within(0..=3 * WEEK)),
        17..=27 => start.saturating_add(random.within(0..=weeks) * WEEK + beside),
        _ => start.saturating_add(random.within(0..=weeks * WEEK)),
    }
}

#[cfg(test)]
mod tests {
    use super::*;

    #[test]
    fn mondays() {
        assert_eq!([MONDAY, MONDAY + 1, MONDAY + WEEK - 1].map(monday), [MONDAY; 3]);
        assert_eq!([-1, 0, MONDAY - 1].map(monday), [MONDAY - WEEK; 3]);
        assert_eq!([i64::MIN, FIRST_MONDAY, FIRST_MONDAY + 1].map(monday), [FIRST_MONDAY; 3]);
        assert_eq!([LAST_MONDAY, i64::MAX].map(monday), [LAST_MONDAY; 2]);
    }
}
