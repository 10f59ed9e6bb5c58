//! Local seconds and how they are written.

/// Seconds of a day.
pub const DAY: i64 = 86_400;

/// 1601-01-01T00:00:00, the first second of the profile, and 9999-01-01T00:00:00, the first behind it.
pub const FIRST: i64 = -11_644_473_600;
pub const END: i64 = 253_370_764_800;

/// `YYYY-MM-DDTHH:MM:SS` of local seconds.
pub fn written(seconds: i64) -> String {
    let (year, month, day) = date(seconds.div_euclid(DAY));
    let time = seconds.rem_euclid(DAY);
    format!("{year:04}-{month:02}-{day:02}T{:02}:{:02}:{:02}", time / 3_600, time / 60 % 60, time % 60)
}

/// Local seconds of `YYYY-MM-DD` or `YYYY-MM-DDTHH:MM:SS`, which has to be right and not before 1600.
pub fn read(text: &str) -> i64 {
    let part = |place: std::ops::Range<usize>| text.get(place).map_or(0, |digits| digits.parse().expect("digits"));
    let (year, month, day): (i64, i64, i64) = (part(0..4), part(5..7), part(8..10));
    let from_1600 = year - 1600;
    let years = 365 * from_1600 + (from_1600 + 3) / 4 - (from_1600 + 99) / 100 + (from_1600 + 399) / 400;
    let is_leap = year % 4 == 0 && (year % 100 != 0 || year % 400 == 0);
    let lengths = [31, 28 + i64::from(is_leap), 31, 30, 31, 30, 31, 31, 30, 31, 30];
    let months: i64 = lengths.iter().take(month as usize - 1).sum();
    (years + months + day - 1 - 135_140) * DAY + part(11..13) * 3_600 + part(14..16) * 60 + part(17..19)
}

/// The date of a day counted from 1970-01-01: whole cycles of 400 years, then years and months one by one.
pub fn date(day: i64) -> (i64, i64, i64) {
    let from_1600 = day + 135_140;
    let mut year = 1600 + 400 * from_1600.div_euclid(146_097);
    let mut rest = from_1600.rem_euclid(146_097);
    let is_leap = |year: i64| year % 4 == 0 && (year % 100 != 0 || year % 400 == 0);
    while rest >= 365 + i64::from(is_leap(year)) {
        rest -= 365 + i64::from(is_leap(year));
        year += 1;
    }
    let mut month = 1;
    for length in [31, 28 + i64::from(is_leap(year)), 31, 30, 31, 30, 31, 31, 30, 31, 30] {
        if rest < length {
            break;
        }
        rest -= length;
        month += 1;
    }
    (year, month, rest + 1)
}

#[cfg(test)]
mod tests {
    use super::*;

    #[test]
    fn known_dates() {
        for (seconds, date) in [
            (0, "1970-01-01T00:00:00"),
            (FIRST, "1601-01-01T00:00:00"),
            (END, "9999-01-01T00:00:00"),
            (-1, "1969-12-31T23:59:59"),
            (1_709_164_800, "2024-02-29T00:00:00"),
            (1_735_603_200, "2024-12-31T00:00:00"),
        ] {
            assert_eq!(written(seconds), date);
            assert_eq!(read(date), seconds);
        }
    }
}
