//! Ranges of whole weeks.

use crate::raw;
use crate::status::Status;

/// The seconds of a week.
const WEEK: i64 = 604_800;

/// Whole weeks in UTC: two instants in seconds from 1970-01-01T00:00:00Z, each a Monday 00:00:00. The first is in the range, the second is not.
#[derive(Clone, Copy, Debug, PartialEq, Eq, Hash)]
pub struct WeekRange {
    start: i64,
    end: i64,
}

impl WeekRange {
    /// A range that the library takes; it judges the range itself. Any Monday of a signed 64-bit number is allowed.
    ///
    /// ```
    /// use smocurant::{time, Status, WeekRange};
    ///
    /// let (first, last) = (time::seconds(2026, 1, 5), time::seconds(2026, 2, 2));
    /// let range = WeekRange::new(first, last)?;
    /// assert_eq!(range.number_of_weeks(), 4);
    /// assert_eq!(time::written(range.mondays().last().unwrap()), "2026-01-26T00:00:00");
    /// assert_eq!(WeekRange::new(first, first)?.number_of_weeks(), 0);
    /// assert_eq!(WeekRange::new(last, first), Err(Status::WeekRange));
    /// assert_eq!(WeekRange::new(first + 1, last), Err(Status::WeekRange));
    /// # Ok::<(), Status>(())
    /// ```
    pub fn new(start: i64, end: i64) -> Result<WeekRange, Status> {
        // No log, no sheet and no room. The log is right, and the range is judged before the sheet.
        let (answer, _) = raw::weeks(&[], &[], start, end, &mut []);
        match Status::of_number(answer) {
            Some(Status::WeekRange) => Err(Status::WeekRange),
            _ => Ok(WeekRange { start, end }),
        }
    }

    /// The first Monday.
    pub fn start(self) -> i64 {
        self.start
    }

    /// The first Monday after the range.
    pub fn end(self) -> i64 {
        self.end
    }

    /// The number of weeks. The seconds can pass 2^63, and are taken unsigned.
    pub fn number_of_weeks(self) -> u64 {
        self.end.abs_diff(self.start) / WEEK.unsigned_abs()
    }

    /// The Monday of each week, in order.
    pub fn mondays(self) -> impl Iterator<Item = i64> + Clone {
        let first = (self.start < self.end).then_some(self.start);
        std::iter::successors(first, move |monday| monday.checked_add(WEEK).filter(|next| *next < self.end))
    }
}

#[cfg(test)]
mod tests {
    use super::*;

    /// The first and the last Monday of signed 64-bit numbers.
    const FIRST: i64 = i64::MIN + 55_808;
    const LAST: i64 = i64::MAX - 574_207;

    #[test]
    fn the_widest_range() {
        let range = WeekRange::new(FIRST, LAST).unwrap();
        let seconds = i128::from(LAST) - i128::from(FIRST);
        assert!(seconds > 1 << 63);
        assert_eq!(i128::from(range.number_of_weeks()) * i128::from(WEEK), seconds);
        assert_eq!(range.mondays().take(3).collect::<Vec<_>>(), [FIRST, FIRST + WEEK, FIRST + 2 * WEEK]);
    }

    #[test]
    fn the_last_weeks() {
        let range = WeekRange::new(LAST - 2 * WEEK, LAST).unwrap();
        assert_eq!(range.mondays().collect::<Vec<_>>(), [LAST - 2 * WEEK, LAST - WEEK]);
        assert_eq!((range.start(), range.end(), range.number_of_weeks()), (LAST - 2 * WEEK, LAST, 2));
    }

    #[test]
    fn an_empty_range() {
        let range = WeekRange::new(345_600, 345_600).unwrap();
        assert_eq!((range.number_of_weeks(), range.mondays().next()), (0, None));
    }

    #[test]
    fn wrong_ranges() {
        for (start, end) in [(345_600, -259_200), (0, 604_800), (345_600, 345_601), (i64::MIN, i64::MAX), (LAST, FIRST)] {
            assert_eq!(WeekRange::new(start, end), Err(Status::WeekRange), "{start} {end}");
        }
    }
}
