//! The footer's rule: the `TZ` string of POSIX, with the hours from -167 to 167 that RFC 8536, 3.3.1, adds.
//!
//! `CET-1CEST,M3.5.0,M10.5.0/3`: offsets are written with the sign turned, so that -1 is an hour ahead of UTC.

use crate::time;

/// Seconds of a day and an hour.
const DAY: i64 = 86_400;
const HOUR: i64 = 3_600;

/// What holds behind the last change of a file.
#[derive(Clone, Debug, PartialEq)]
pub struct Rule {
    /// The offset of standard time, in seconds ahead of UTC.
    pub standard: i64,
    /// Daylight saving time, if there is any.
    pub daylight: Option<Daylight>,
}

/// Daylight saving time of every year.
#[derive(Clone, Debug, PartialEq)]
pub struct Daylight {
    /// Its offset, in seconds ahead of UTC.
    pub offset: i64,
    /// When it starts, in standard time.
    pub start: Moment,
    /// When it ends, in daylight saving time.
    pub end: Moment,
}

/// A day of every year, and the seconds from its midnight.
#[derive(Clone, Debug, PartialEq)]
pub struct Moment {
    day: YearDay,
    seconds: i64,
}

#[derive(Clone, Debug, PartialEq)]
enum YearDay {
    /// `Jn`: the day of the year, 1 to 365; 29 February is not counted.
    WithoutLeapDay(i64),
    /// `n`: the day of the year, 0 to 365; 29 February is counted.
    WithLeapDay(i64),
    /// `Mm.w.d`: the wth weekday d of month m, 0 being Sunday; the 5th is the last.
    Weekday { month: i64, week: i64, weekday: i64 },
}

impl Moment {
    /// The local seconds of the moment in a year.
    pub fn in_year(&self, year: i64) -> i64 {
        let first = time::seconds(year, 1, 1);
        let midnight = match self.day {
            YearDay::WithLeapDay(day) => first + day * DAY,
            YearDay::WithoutLeapDay(day) => {
                let is_leap = time::seconds(year + 1, 1, 1) - first == 366 * DAY;
                first + (day - 1 + i64::from(is_leap && day >= 60)) * DAY
            }
            YearDay::Weekday { month, week, weekday } => nth_weekday(year, month, week, weekday),
        };
        midnight + self.seconds
    }
}

fn nth_weekday(year: i64, month: i64, week: i64, weekday: i64) -> i64 {
    let first = time::seconds(year, month, 1);
    let next_month = if month == 12 { time::seconds(year + 1, 1, 1) } else { time::seconds(year, month + 1, 1) };
    // 1970-01-01 was a Thursday, which is 4.
    let first_weekday = (first / DAY + 4).rem_euclid(7);
    let mut midnight = first + ((weekday - first_weekday).rem_euclid(7) + 7 * (week - 1)) * DAY;
    while midnight >= next_month {
        midnight -= 7 * DAY;
    }
    midnight
}

/// Reads a rule.
pub fn read(text: &str) -> Option<Rule> {
    let mut rest = text;
    name(&mut rest)?;
    let standard = -hours(&mut rest)?;
    if rest.is_empty() {
        return Some(Rule { standard, daylight: None });
    }
    name(&mut rest)?;
    let offset = if rest.starts_with(',') { standard + HOUR } else { -hours(&mut rest)? };
    let start = moment(&mut rest)?;
    let end = moment(&mut rest)?;
    rest.is_empty().then_some(Rule { standard, daylight: Some(Daylight { offset, start, end }) })
}

/// Takes an abbreviation: letters, or anything between angle brackets.
fn name(rest: &mut &str) -> Option<()> {
    let length = if rest.starts_with('<') { rest.find('>')? + 1 } else { rest.bytes().take_while(u8::is_ascii_alphabetic).count() };
    *rest = &rest[length..];
    (length >= 3).then_some(())
}

/// Takes `[+-]hh[:mm[:ss]]`, in seconds.
fn hours(rest: &mut &str) -> Option<i64> {
    let sign = if take(rest, '-') { -1 } else { 1 };
    if sign == 1 {
        take(rest, '+');
    }
    let mut seconds = digits(rest)?.checked_mul(HOUR)?;
    for unit in [60, 1] {
        if take(rest, ':') {
            seconds = seconds.checked_add(digits(rest)?.checked_mul(unit)?)?;
        } else {
            break;
        }
    }
    (seconds < 168 * HOUR).then_some(sign * seconds)
}

/// Takes a comma, a day and its time, which is 2 o'clock by default.
fn moment(rest: &mut &str) -> Option<Moment> {
    if !take(rest, ',') {
        return None;
    }
    let day = if take(rest, 'J') {
        YearDay::WithoutLeapDay(digits(rest).filter(|day| (1..=365).contains(day))?)
    } else if take(rest, 'M') {
        weekday(rest)?
    } else {
        YearDay::WithLeapDay(digits(rest).filter(|day| *day <= 365)?)
    };
    let seconds = if take(rest, '/') { hours(rest)? } else { 2 * HOUR };
    Some(Moment { day, seconds })
}

/// Takes `m.w.d`.
fn weekday(rest: &mut &str) -> Option<YearDay> {
    let month = digits(rest).filter(|month| (1..=12).contains(month))?;
    let week = take(rest, '.').then(|| digits(rest))?.filter(|week| (1..=5).contains(week))?;
    let weekday = take(rest, '.').then(|| digits(rest))?.filter(|day| *day <= 6)?;
    Some(YearDay::Weekday { month, week, weekday })
}

fn take(rest: &mut &str, letter: char) -> bool {
    let behind = rest.strip_prefix(letter);
    *rest = behind.unwrap_or(rest);
    behind.is_some()
}

fn digits(rest: &mut &str) -> Option<i64> {
    let length = rest.bytes().take_while(u8::is_ascii_digit).count();
    let number = rest[..length].parse().ok();
    *rest = &rest[length..];
    number
}

#[cfg(test)]
mod tests {
    use super::*;

    fn moments(rule: &str, year: i64) -> (String, String) {
        let daylight = read(rule).unwrap().daylight.unwrap();
        (time::written(daylight.start.in_year(year)), time::written(daylight.end.in_year(year)))
    }

    #[test]
    fn rules() {
        assert_eq!(read("UTC0"), Some(Rule { standard: 0, daylight: None }));
        assert_eq!(read("<+0545>-5:45"), Some(Rule { standard: 20_700, daylight: None }));
        assert_eq!(read("JST-9").map(|rule| rule.standard), Some(32_400));
        let two = |start: &str, end: &str| (start.to_string(), end.to_string());
        assert_eq!(moments("CET-1CEST,M3.5.0,M10.5.0/3", 2024), two("2024-03-31T02:00:00", "2024-10-27T03:00:00"));
        assert_eq!(moments("EST5EDT,M3.2.0,M11.1.0", 2020), two("2020-03-08T02:00:00", "2020-11-01T02:00:00"));
        assert_eq!(moments("<-02>2<-01>,M3.5.0/-1,M10.5.0/0", 2024), two("2024-03-30T23:00:00", "2024-10-27T00:00:00"));
        assert_eq!(moments("XXX3EDT4,0/0,J365/23", 2024), two("2024-01-01T00:00:00", "2024-12-31T23:00:00"));
        assert_eq!(moments("AAA0BBB,J60,59", 2024), two("2024-03-01T02:00:00", "2024-02-29T02:00:00"));
        assert_eq!(moments("IST-2IDT,M3.4.4/26,M10.5.0", 2024), two("2024-03-29T02:00:00", "2024-10-27T02:00:00"));
    }

    #[test]
    fn wrong_rules() {
        for wrong in [
            "",
            "A0",
            "EST",
            "EST5EDT",
            "EST5EDT,M3.2.0",
            "EST5EDT,M13.2.0,M11.1.0",
            "EST5EDT,M3.6.0,M11.1.0",
            "EST5EDT,M3.2.7,M11.1.0",
            "EST5EDT,J0,J365",
            "EST5EDT,366,1",
            "EST168",
            "EST5EDT,M3.2.0,M11.1.0x",
            "<abc5",
            "EST5EDT,M3.2.0,",
            "EST99999999999999999999",
        ] {
            assert_eq!(read(wrong), None, "{wrong}");
        }
    }
}
