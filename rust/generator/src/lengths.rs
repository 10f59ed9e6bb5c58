//! Lengths of occurrences.

use crate::dates::DAY;
use crate::random::Random;

/// A length is at most so many days of 86,400 seconds.
const MOST_DAYS: i64 = 366;

/// A length in its two parts, which are apart: a day is not 24 hours.
#[derive(Clone, Copy, Debug, Default, PartialEq, Eq)]
pub struct Length {
    /// The weeks and days, in days.
    pub days: i64,
    /// The hours, minutes and seconds, in seconds.
    pub seconds: i64,
}

impl Length {
    /// Any length: often one of days, of whole days in seconds, or of both parts; some are the longest.
    pub fn random(random: &mut Random) -> Length {
        let days = random.pick(&[1, 1, 1, 1, 1, 2, 7, 17, 182, 366]);
        let any_days = random.within(0..=MOST_DAYS);
        let (days, seconds) = match random.below(12) {
            0 => (0, 0),
            1..=2 => (0, random.within(0..=400) * 900),
            3..=5 => (days, 0),
            6 => (0, days * DAY),
            7..=9 => (days, random.pick(&[1, 3_600, 10_800, DAY - 1, DAY, DAY + 1, 2 * DAY])),
            10 => (any_days, MOST_DAYS * DAY),
            _ => (any_days, random.within(0..=MOST_DAYS * DAY)),
        };
        Length { days, seconds: seconds.min((MOST_DAYS - days) * DAY) }
    }

    /// A local time moved by the days.
    pub fn moves(self, local: i64) -> i64 {
        local + self.days * DAY
    }
}
