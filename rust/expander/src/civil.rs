//! The Gregorian calendar: days are counted from 1970-01-01, which is day 0.

/// Seconds of a day.
pub const DAY: i64 = 86_400;

/// A date. Months and days of the month count from 1.
#[derive(Clone, Copy, Debug, PartialEq, Eq, PartialOrd, Ord)]
pub struct Date {
    pub year: i64,
    pub month: i64,
    pub day: i64,
}

/// Has the year a 29 February?
pub fn is_leap(year: i64) -> bool {
    year % 4 == 0 && (year % 100 != 0 || year % 400 == 0)
}

/// The days of a year.
pub fn year_length(year: i64) -> i64 {
    365 + i64::from(is_leap(year))
}

/// The days of a month, 1 to 12.
pub fn month_length(year: i64, month: i64) -> i64 {
    match month {
        2 => 28 + i64::from(is_leap(year)),
        4 | 6 | 9 | 11 => 30,
        _ => 31,
    }
}

impl Date {
    /// Is this a real date?
    pub fn is_real(self) -> bool {
        (1..=12).contains(&self.month) && (1..=month_length(self.year, self.month)).contains(&self.day)
    }

    /// The number of a date. Years are taken from March on, so that a leap day is a year's last: then the days before a month follow
    /// one line, whatever the year.
    pub fn number(self) -> i64 {
        let year = if self.month <= 2 { self.year - 1 } else { self.year };
        let month = (self.month + 9) % 12;
        let before_month = (153 * month + 2) / 5;
        let before_year = 365 * year + year.div_euclid(4) - year.div_euclid(100) + year.div_euclid(400);
        before_year + before_month + self.day - 1 - FROM_YEAR_ZERO
    }

    /// The date of a number.
    pub fn of_number(number: i64) -> Date {
        let from_zero = number + FROM_YEAR_ZERO;
        let cycle = from_zero.div_euclid(DAYS_OF_400_YEARS);
        let in_cycle = from_zero.rem_euclid(DAYS_OF_400_YEARS);
        let year_of_cycle = (in_cycle - in_cycle / 1_460 + in_cycle / 36_524 - in_cycle / 146_096) / 365;
        let in_year = in_cycle - (365 * year_of_cycle + year_of_cycle / 4 - year_of_cycle / 100);
        let month = (5 * in_year + 2) / 153;
        let day = in_year - (153 * month + 2) / 5 + 1;
        let month = if month < 10 { month + 3 } else { month - 9 };
        let year = 400 * cycle + year_of_cycle + i64::from(month <= 2);
        Date { year, month, day }
    }

    /// The place of a date in its year, from 0.
    pub fn day_of_year(self) -> i64 {
        self.number() - Date { year: self.year, month: 1, day: 1 }.number()
    }
}

/// The days from 0000-03-01 to 1970-01-01.
const FROM_YEAR_ZERO: i64 = 719_468;
const DAYS_OF_400_YEARS: i64 = 146_097;

/// The weekday of a day: 0 is Monday.
pub fn weekday(day: i64) -> i64 {
    (day + 3).rem_euclid(7)
}

#[cfg(test)]
mod tests {
    use super::*;

    #[test]
    fn numbers_and_dates_go_round() {
        let mut expected = Date { year: 1600, month: 1, day: 1 };
        for number in expected.number()..=(Date { year: 10_000, month: 1, day: 1 }).number() {
            assert_eq!(Date::of_number(number), expected);
            assert_eq!(expected.number(), number);
            expected.day += 1;
            if expected.day > month_length(expected.year, expected.month) {
                expected = Date { month: expected.month + 1, day: 1, ..expected };
            }
            if expected.month > 12 {
                expected = Date { year: expected.year + 1, month: 1, day: 1 };
            }
        }
    }

    #[test]
    fn known_days() {
        assert_eq!(Date { year: 1970, month: 1, day: 1 }.number(), 0);
        assert_eq!(Date { year: 1601, month: 1, day: 1 }.number() * DAY, -11_644_473_600);
        assert_eq!(Date { year: 9999, month: 1, day: 1 }.number() * DAY, 253_370_764_800);
        // 01: "Entry 1 is 366, entry 400 is 146,097."
        let first = |year| Date { year, month: 1, day: 1 }.number();
        assert_eq!((first(1601) - first(1600), first(2000) - first(1600)), (366, 146_097));
        // 1997-08-05 was a Tuesday, 2024-01-03 a Wednesday.
        assert_eq!(weekday(Date { year: 1997, month: 8, day: 5 }.number()), 1);
        assert_eq!(weekday(Date { year: 2024, month: 1, day: 3 }.number()), 2);
    }
}
