//! "Periods are whole days, weeks from `firstDayOfWeek`, months or years. The first holds the start; then every interval-th."
//!
//! Periods of one kind are numbered without gaps; which number is 0 does not matter.

use crate::civil::{month_length, year_length, Date};
use crate::event::{Frequency, Rule};
use std::ops::Range;

/// The number of the period that holds a day.
pub fn number(rule: &Rule, day: i64) -> i64 {
    let date = Date::of_number(day);
    match rule.frequency {
        Frequency::Daily => day,
        Frequency::Weekly => (day - some_week_start(rule)).div_euclid(7),
        Frequency::Monthly => date.year * 12 + date.month - 1,
        Frequency::Yearly => date.year,
    }
}

/// The days of a period.
pub fn days(rule: &Rule, number: i64) -> Range<i64> {
    let (first, length) = match rule.frequency {
        Frequency::Daily => (number, 1),
        Frequency::Weekly => (some_week_start(rule) + 7 * number, 7),
        Frequency::Monthly => {
            let (year, month) = (number.div_euclid(12), number.rem_euclid(12) + 1);
            (Date { year, month, day: 1 }.number(), month_length(year, month))
        }
        Frequency::Yearly => (Date { year: number, month: 1, day: 1 }.number(), year_length(number)),
    };
    first..first + length
}

/// A day on which a week of the rule starts: day 4, 1970-01-05, was a Monday.
fn some_week_start(rule: &Rule) -> i64 {
    4 + rule.first_day_of_week
}

#[cfg(test)]
mod tests {
    use super::*;

    #[test]
    fn periods_follow_each_other() {
        for frequency in [Frequency::Daily, Frequency::Weekly, Frequency::Monthly, Frequency::Yearly] {
            for first_day_of_week in 0..7 {
                let rule = Rule { frequency, first_day_of_week, ..Rule::default() };
                let mut number = number(&rule, -5_000);
                for day in -5_000..5_000 {
                    if day >= days(&rule, number).end {
                        number += 1;
                    }
                    assert!(days(&rule, number).contains(&day));
                    assert_eq!(super::number(&rule, day), number);
                }
                if frequency == Frequency::Weekly {
                    assert_eq!(crate::civil::weekday(days(&rule, number).start), first_day_of_week);
                }
            }
        }
    }
}
