//! Days and weeks of UTC, as they are written.

use smocurant::time;

/// Seconds of a day and of a week.
pub const DAY: i64 = 86_400;
pub const WEEK: i64 = 7 * DAY;

/// The epoch was a Thursday, so this is the first Monday after it.
const FIRST_MONDAY: i64 = 4 * DAY;

const MONTHS: [&str; 12] = ["Jan", "Feb", "Mar", "Apr", "May", "Jun", "Jul", "Aug", "Sep", "Oct", "Nov", "Dec"];

/// The seconds from the last Monday 00:00:00 up to a second count: 0 at a Monday.
pub fn since_monday(seconds: i64) -> i64 {
    (seconds - FIRST_MONDAY).rem_euclid(WEEK)
}

/// `2026-01-05`
pub fn day(seconds: i64) -> String {
    let (year, month, day) = time::date(seconds);
    format!("{year:04}-{month:02}-{day:02}")
}

/// `5 Jan`
pub fn day_and_month(seconds: i64) -> String {
    let (_, _, day) = time::date(seconds);
    format!("{day} {}", month(seconds))
}

/// `Jan`
pub fn month(seconds: i64) -> &'static str {
    let (_, month, _) = time::date(seconds);
    usize::try_from(month - 1).ok().and_then(|place| MONTHS.get(place)).expect("a month is 1 to 12")
}
