//! Week numbers (ISO 8601): a week belongs to the year that its Thursday is in.

use super::dates::{self, DAY, WEEK};
use smocurant::time;
use std::fmt;

/// A week of a year.
#[derive(Clone, Copy, Debug, PartialEq, Eq)]
pub struct IsoWeek {
    /// The year, at its start and end not always that of the date.
    pub year: i64,
    /// The number in the year, from 1.
    pub number: i64,
}

impl IsoWeek {
    /// The week that begins at a Monday's second count.
    pub fn of_monday(monday: i64) -> IsoWeek {
        let thursday = monday + 3 * DAY;
        let (year, _, _) = time::date(thursday);
        IsoWeek { year, number: (thursday - time::seconds(year, 1, 1)) / WEEK + 1 }
    }

    /// The Monday of a year's first week, which is the week of 4 January.
    pub fn first_monday(year: i64) -> i64 {
        let fourth = time::seconds(year, 1, 4);
        fourth - dates::since_monday(fourth)
    }
}

impl fmt::Display for IsoWeek {
    fn fmt(&self, out: &mut fmt::Formatter) -> fmt::Result {
        write!(out, "{:04}-W{:02}", self.year, self.number)
    }
}

#[cfg(test)]
mod tests {
    use super::*;

    /// The days of a year, counted plainly.
    fn days(year: i64) -> i64 {
        365 + i64::from(year % 4 == 0 && (year % 100 != 0 || year % 400 == 0))
    }

    /// Year by year from 1601, whose 1 January was a Monday, each day is given its week by the rule in words: week 1 is the first with four days or
    /// more in the year, so it is the week of the first Thursday.
    #[test]
    fn every_week_from_1601_to_2400() {
        let first = time::seconds(1601, 1, 1);
        let (mut weekday, mut day) = (0, 0);
        let mut weeks: Vec<(i64, IsoWeek)> = Vec::new();
        for year in 1601..=2400 {
            let mut number = 0;
            for _ in 0..days(year) {
                if weekday == 3 {
                    number += 1;
                    weeks.push((first + (day - 3) * DAY, IsoWeek { year, number }));
                }
                weekday = (weekday + 1) % 7;
                day += 1;
            }
        }
        // 400 years have 20,871 weeks.
        assert_eq!(weeks.len(), 2 * 20_871);
        for (monday, week) in weeks {
            assert_eq!(IsoWeek::of_monday(monday), week);
            assert!(week.number > 1 || IsoWeek::first_monday(week.year) == monday, "{week}");
        }
    }

    #[test]
    fn written_weeks() {
        let week = |text: &str| IsoWeek::of_monday(time::read(text).unwrap()).to_string();
        assert_eq!(week("2025-12-29"), "2026-W01");
        assert_eq!(week("2026-12-28"), "2026-W53");
        assert_eq!(week("2027-01-04"), "2027-W01");
        assert_eq!(week("2024-12-30"), "2025-W01");
        assert_eq!(week("2020-12-28"), "2020-W53");
        assert_eq!(week("1969-12-29"), "1970-W01");
    }
}
