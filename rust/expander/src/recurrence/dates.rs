//! The date-times of one rule.

use super::matching::Matcher;
use super::{periods, END_OF_TIME};
use crate::civil::DAY;
use crate::event::{End, Rule};
use std::ops::Range;

/// In which list a rule stands.
#[derive(Clone, Copy, PartialEq, Eq)]
pub enum Kind {
    /// "The start is always the first occurrence and is counted, even unmatched, and even where `until` lies before it (house)."
    Included,
    /// "the start belongs to it, and to its count, only where it matches and no `until` lies before it"
    Excluded,
}

/// The local date-times of a rule in a span, in order.
pub fn dates(rule: &Rule, start: i64, kind: Kind, span: Range<i64>) -> Vec<i64> {
    let end = span.end.min(match rule.end {
        End::Until(until) => (until + 1).min(END_OF_TIME),
        _ => END_OF_TIME,
    });
    let own = matched(rule, start, span.start..end);
    let all: Box<dyn Iterator<Item = i64>> = match kind {
        Kind::Included => Box::new(std::iter::once(start).chain(own.filter(|date| *date != start))),
        Kind::Excluded => Box::new(own),
    };
    let count = match rule.end {
        End::Count(count) => usize::try_from(count).unwrap_or(usize::MAX),
        _ => usize::MAX,
    };
    all.take(count).filter(|date| span.contains(date)).collect()
}

/// The date-times, from the start on, that the by-lists and positions of a rule give before the end of a span, in order. Those before the
/// span are left out, unless there is a count to keep.
fn matched(rule: &Rule, start: i64, span: Range<i64>) -> impl Iterator<Item = i64> {
    let (start_day, time_of_day) = (start.div_euclid(DAY), start.rem_euclid(DAY));
    let from = if matches!(rule.end, End::Count(_)) { start } else { span.start.max(start) };
    let last_day = span.end.div_euclid(DAY);
    let matcher = Matcher::new(rule, start_day);
    let own = rule.clone();
    period_numbers(rule, start_day, from.div_euclid(DAY))
        .map(move |number| periods::days(&own, number))
        .take_while(move |days| days.start <= last_day)
        .flat_map(move |days| matcher.pick(days.filter(|day| matcher.matches(*day)).collect()))
        .map(move |day| day * DAY + time_of_day)
        .filter(move |date| (start..span.end).contains(date))
}

/// The periods that count: the one that holds the start and every interval-th; those that end before a day are left out.
fn period_numbers(rule: &Rule, start_day: i64, from_day: i64) -> impl Iterator<Item = i64> {
    let (first, interval) = (periods::number(rule, start_day), rule.interval);
    let skipped = (periods::number(rule, from_day) - first) / interval;
    std::iter::successors(Some(first + skipped * interval), move |number| Some(number + interval))
}
