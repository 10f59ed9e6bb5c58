//! Whether a day meets the by-lists of a rule, and the values that are added to them first.

use crate::civil::{month_length, weekday, year_length, Date};
use crate::event::{Frequency, NthDay, Rule};

/// The by-lists of a rule, with the added values.
pub struct Matcher {
    rule: Rule,
    /// `nthOfPeriod` counts in the year: "under yearly with no `byMonth` written".
    nth_in_year: bool,
}

impl Matcher {
    /// "Added first: weekly without `byDay`, the start's weekday. Monthly without `byDay` and `byMonthDay`, the start's day. Yearly:
    /// without `byMonth`, and with `byMonthDay` or without `byDay`, the start's month; without `byMonthDay` and `byDay`, the start's
    /// day."
    pub fn new(rule: &Rule, start_day: i64) -> Matcher {
        let start = Date::of_number(start_day);
        let (no_day, no_month_day, no_month) = (rule.by_day.is_empty(), rule.by_month_day.is_empty(), rule.by_month.is_empty());
        let mut full = rule.clone();
        match rule.frequency {
            Frequency::Weekly if no_day => full.by_day.push(NthDay { weekday: weekday(start_day), nth: None }),
            Frequency::Monthly | Frequency::Yearly if no_day && no_month_day => full.by_month_day.push(start.day),
            _ => {}
        }
        if rule.frequency == Frequency::Yearly && no_month && (!no_month_day || no_day) {
            full.by_month.push(start.month);
        }
        Matcher { rule: full, nth_in_year: rule.frequency == Frequency::Yearly && no_month }
    }

    /// "It stays if every by-list except `bySetPosition` has an entry that it meets."
    pub fn matches(&self, day: i64) -> bool {
        let date = Date::of_number(day);
        meets_some(&self.rule.by_month, |month| *month == date.month)
            && meets_some(&self.rule.by_month_day, |place| is_at(*place, date.day - 1, month_length(date.year, date.month)))
            && meets_some(&self.rule.by_day, |entry| entry.weekday == weekday(day) && self.is_nth(entry, date))
    }

    /// Is a date the nth of its weekday?
    fn is_nth(&self, entry: &NthDay, date: Date) -> bool {
        let Some(nth) = entry.nth else { return true };
        let (before, length) = if self.nth_in_year {
            (date.day_of_year(), year_length(date.year))
        } else {
            (date.day - 1, month_length(date.year, date.month))
        };
        let same_before = before / 7;
        let same_behind = (length - 1 - before) / 7;
        is_at(nth, same_before, same_before + 1 + same_behind)
    }

    /// "`bySetPosition` picks places of the period's remaining list, each once, a place beyond it nothing."
    pub fn pick(&self, list: Vec<i64>) -> Vec<i64> {
        let length = list.len() as i64;
        let is_picked = |place: i64| meets_some(&self.rule.by_set_position, |position| is_at(*position, place, length));
        (0..length).zip(list).filter(|(place, _)| is_picked(*place)).map(|(_, day)| day).collect()
    }
}

/// A by-list that is absent asks for nothing.
fn meets_some<T>(list: &[T], meets: impl Fn(&T) -> bool) -> bool {
    list.is_empty() || list.iter().any(meets)
}

/// Is the thing with so many before it the one at a signed place? 1 is the first, -1 the last.
fn is_at(place: i64, before: i64, length: i64) -> bool {
    place == before + 1 || place == before - length
}
