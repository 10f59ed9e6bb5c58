//! Rules of recurrence as they are written.

use super::date_time;
use super::values::{self, LARGEST_INTEGER};
use crate::answer::Refusal;
use crate::fault::Faults;
use crate::json::{Kind, Object, Value};

/// "over 8 rules in either list [or] 64 entries in a by-list" answers 9.
const MOST_RULES: usize = 8;
const MOST_ENTRIES: usize = 64;

/// "`byYearDay`, `byWeekNo`, `byHour`, `byMinute`, `bySecond` [..] answer 8", whatever they hold.
const UNSUPPORTED: [&str; 5] = ["byYearDay", "byWeekNo", "byHour", "byMinute", "bySecond"];

/// Weekdays in the order of their numbers.
const WEEKDAYS: [&[u8]; 7] = [b"mo", b"tu", b"we", b"th", b"fr", b"sa", b"su"];

/// How long a period is.
#[derive(Clone, Copy, Debug, Default, PartialEq, Eq)]
pub enum Frequency {
    #[default]
    Daily,
    Weekly,
    Monthly,
    Yearly,
}

/// A rule. By-lists that are absent are empty, since an empty one is refused. Weekdays are 0, Monday, to 6.
#[derive(Clone, Debug, Default)]
pub struct Rule {
    pub frequency: Frequency,
    pub interval: i64,
    pub first_day_of_week: i64,
    pub by_day: Vec<NthDay>,
    pub by_month_day: Vec<i64>,
    pub by_month: Vec<i64>,
    pub by_set_position: Vec<i64>,
    pub end: End,
}

/// A weekday; all of a period's, or only the nth.
#[derive(Clone, Copy, Debug, Default)]
pub struct NthDay {
    pub weekday: i64,
    pub nth: Option<i64>,
}

/// What ends a rule.
#[derive(Clone, Copy, Debug, Default)]
pub enum End {
    #[default]
    Never,
    /// After so many dates.
    Count(i64),
    /// After this local second.
    Until(i64),
}

/// A list of rules; "an empty rule list counts as absent".
pub fn read_list(value: &Value, faults: &mut Faults) -> Vec<Rule> {
    values::list(value, MOST_RULES, faults, read)
}

fn read(value: &Value, faults: &mut Faults) -> Rule {
    let Some(object) = values::object(value, faults) else { return Rule::default() };
    values::required(object, "@type", faults, |value| read_type(value, b"RecurrenceRule"));
    judge_unsupported(object, faults);
    let frequency = values::required(object, "frequency", faults, |value| read_frequency(value).map(Some));
    let rule = Rule {
        frequency: frequency.unwrap_or_default(),
        interval: values::property(object, "interval", 1, faults, read_at_least_one),
        first_day_of_week: values::property(object, "firstDayOfWeek", 0, faults, read_weekday),
        by_day: by_list(object, "byDay", faults, read_nth_day),
        by_month_day: by_list(object, "byMonthDay", faults, |value, faults| read_place(value, 31, faults)),
        by_month: by_list(object, "byMonth", faults, |value, faults| faults.keep(value.place, read_month(value), 0)),
        by_set_position: by_list(object, "bySetPosition", faults, |value, faults| read_place(value, 366, faults)),
        end: read_end(object, faults),
    };
    let is_day_or_week = matches!(frequency, Some(Frequency::Daily | Frequency::Weekly));
    let has_nth = rule.by_day.iter().any(|entry| entry.nth.is_some());
    faults.note_if(is_day_or_week && has_nth, object.place, Refusal::Conflict);
    rule
}

/// Members that are unsupported as a whole, or in most of their values.
fn judge_unsupported(object: &Object, faults: &mut Faults) {
    for value in UNSUPPORTED.iter().filter_map(|name| object.get(name)) {
        faults.note(value.place, Refusal::Unsupported);
    }
    values::property(object, "rscale", (), faults, read_rscale);
    values::property(object, "skip", (), faults, read_skip);
}

/// `@type` inside an event is a closed list of one word.
fn read_type(value: &Value, name: &[u8]) -> Result<(), Refusal> {
    if values::word(value)? == name {
        Ok(())
    } else {
        Err(Refusal::Word)
    }
}

fn read_frequency(value: &Value) -> Result<Frequency, Refusal> {
    match values::word(value)? {
        b"daily" => Ok(Frequency::Daily),
        b"weekly" => Ok(Frequency::Weekly),
        b"monthly" => Ok(Frequency::Monthly),
        b"yearly" => Ok(Frequency::Yearly),
        b"hourly" | b"minutely" | b"secondly" => Err(Refusal::Unsupported),
        _ => Err(Refusal::Word),
    }
}

fn read_rscale(value: &Value) -> Result<(), Refusal> {
    match values::word(value)? {
        b"gregorian" => Ok(()),
        _ => Err(Refusal::Unsupported),
    }
}

fn read_skip(value: &Value) -> Result<(), Refusal> {
    match values::word(value)? {
        b"omit" => Ok(()),
        b"forward" | b"backward" => Err(Refusal::Unsupported),
        _ => Err(Refusal::Word),
    }
}

fn read_at_least_one(value: &Value) -> Result<i64, Refusal> {
    values::integer(value, 1..=LARGEST_INTEGER)
}

fn read_weekday(value: &Value) -> Result<i64, Refusal> {
    let word = values::word(value)?;
    WEEKDAYS.iter().position(|day| *day == word).map(|place| place as i64).ok_or(Refusal::Word)
}

fn read_nth_day(value: &Value, faults: &mut Faults) -> NthDay {
    let Some(object) = values::object(value, faults) else { return NthDay::default() };
    values::required(object, "@type", faults, |value| read_type(value, b"NDay"));
    NthDay {
        weekday: values::required(object, "day", faults, read_weekday),
        nth: values::property(object, "nthOfPeriod", None, faults, |value| values::place(value, 53).map(Some)),
    }
}

fn read_place(value: &Value, furthest: i64, faults: &mut Faults) -> i64 {
    faults.keep(value.place, values::place(value, furthest), 0)
}

/// "`\"1\"` to `\"12\"` (one of these followed by `L`: 8)"; any other is an unknown word.
fn read_month(value: &Value) -> Result<i64, Refusal> {
    let word = values::word(value)?;
    let number = word.strip_suffix(b"L").unwrap_or(word);
    let month = (1..=12i64).find(|month| month.to_string().as_bytes() == number).ok_or(Refusal::Word)?;
    if number.len() == word.len() {
        Ok(month)
    } else {
        Err(Refusal::Unsupported)
    }
}

/// `count` or `until`, but not both.
fn read_end(object: &Object, faults: &mut Faults) -> End {
    let count = values::property(object, "count", None, faults, |value| read_at_least_one(value).map(Some));
    let until = values::property(object, "until", None, faults, |value| date_time::until(value).map(Some));
    faults.note_if(object.get("count").is_some() && object.get("until").is_some(), object.place, Refusal::Conflict);
    match (count, until) {
        (Some(count), _) => End::Count(count),
        (None, Some(until)) => End::Until(until),
        (None, None) => End::Never,
    }
}

/// A by-list: none where it is absent, and never an empty one.
fn by_list<'t, T>(object: &Object<'t>, name: &str, faults: &mut Faults, read: impl Fn(&Value<'t>, &mut Faults) -> T) -> Vec<T> {
    let Some(value) = object.get(name) else { return Vec::new() };
    let is_empty = matches!(&value.kind, Kind::Array(entries) if entries.is_empty());
    faults.note_if(is_empty, value.place, Refusal::EmptyList);
    values::list(value, MOST_ENTRIES, faults, read)
}
