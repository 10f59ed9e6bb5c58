//! Instants as RFC 3339 writes them.

use super::dates::DAY;
use smocurant::time;

/// The seconds from 1970-01-01T00:00:00Z of a date and time with its offset from UTC. A fraction of a second is cut off, towards the past. A
/// leap second, the second 60 at the end of a day of UTC, counts as the second before it and so stays in its day and week.
pub fn read(text: &str) -> Option<i64> {
    let (date_time, rest) = text.split_at_checked(19)?;
    let date_time = date_time.to_ascii_uppercase();
    let offset = offset(after_fraction(rest)?)?;
    match date_time.strip_suffix(":60") {
        None => Some(time::read(&date_time)? - offset),
        Some(minute) => {
            let before = time::read(&format!("{minute}:59"))? - offset;
            (before.rem_euclid(DAY) == DAY - 1).then_some(before)
        }
    }
}

/// What stands after the fraction, if there is one.
fn after_fraction(text: &str) -> Option<&str> {
    let Some(fraction) = text.strip_prefix('.') else { return Some(text) };
    let after = fraction.trim_start_matches(|letter: char| letter.is_ascii_digit());
    (after.len() < fraction.len()).then_some(after)
}

/// The seconds that local time is ahead of UTC: `Z`, `+01:00` or `-01:00`.
fn offset(text: &str) -> Option<i64> {
    if text.eq_ignore_ascii_case("Z") {
        return Some(0);
    }
    let (sign, hours) = text.split_at_checked(1)?;
    // Hours and minutes are those of a time of day.
    let seconds = time::read(&format!("1970-01-01T{hours}:00"))?;
    match sign {
        "+" => Some(seconds),
        "-" => Some(-seconds),
        _ => None,
    }
}

#[cfg(test)]
mod tests {
    use super::*;

    /// Dates and times from 1968 to 2032 are counted on plainly, and written with many offsets.
    #[test]
    fn days_counted_one_by_one() {
        const LENGTHS: [i64; 12] = [31, 28, 31, 30, 31, 30, 31, 31, 30, 31, 30, 31];
        const TIMES: [(i64, &str); 4] = [(0, "00:00:00"), (1, "00:00:01"), (32_767, "09:06:07"), (86_399, "23:59:59")];
        const OFFSETS: [(i64, &str); 6] = [(0, "Z"), (0, "z"), (0, "-00:00"), (3_600, "+01:00"), (-16_200, "-04:30"), (86_340, "+23:59")];
        let mut midnight = -731 * DAY;
        for year in 1968..=2032 {
            for month in 1..=12 {
                let leap = month == 2 && year % 4 == 0;
                for day in 1..=LENGTHS[month - 1] + i64::from(leap) {
                    for ((seconds, time), (offset, zone)) in TIMES.iter().flat_map(|time| OFFSETS.map(|offset| (time, offset))) {
                        let text = format!("{year}-{month:02}-{day:02}T{time}{zone}");
                        assert_eq!(read(&text), Some(midnight + seconds - offset), "{text}");
                    }
                    midnight += DAY;
                }
            }
        }
    }

    #[test]
    fn other_spellings() {
        let cases = [
            ("1970-01-01t00:00:00z", 0),
            ("1970-01-01T00:00:00.999999999999Z", 0),
            ("1969-12-31T23:59:59.9Z", -1),
            ("1970-01-01T01:00:01.5+01:00", 1),
            ("0000-01-01T00:00:00Z", -62_167_219_200),
            ("9999-12-31T23:59:59Z", 253_402_300_799),
            ("2016-12-31T23:59:60Z", 1_483_228_799),
            ("2016-12-31T23:59:60.7Z", 1_483_228_799),
            ("2017-01-01T00:59:60+01:00", 1_483_228_799),
        ];
        for (text, expected) in cases {
            assert_eq!(read(text), Some(expected), "{text}");
        }
    }

    #[test]
    fn wrong_spellings() {
        let wrong = [
            "",
            "2026-01-05",
            "2026-01-05T08:00Z",
            "2026-01-05T08:00:00",
            "2026-01-05 08:00:00Z",
            "2026-01-05T08:00:00.Z",
            "2026-01-05T08:00:00,5Z",
            "2026-01-05T08:00:00+0100",
            "2026-01-05T08:00:00+01",
            "2026-01-05T08:00:00+24:00",
            "2026-01-05T08:00:00+01:60",
            "2026-01-05T08:00:00 01:00",
            "2026-01-05T08:00:00Z ",
            "2026-01-05T24:00:00Z",
            "2026-01-05T08:00:60Z",
            "2026-01-05T23:59:61Z",
            "2026-02-29T08:00:00Z",
            "20260105T080000Z",
            "+2026-01-05T08:00:00Z",
            "2026-01-05T08:00:0\u{e4}Z",
            "2026-01-05T08:00:00\u{e4}",
        ];
        for text in wrong {
            assert_eq!(read(text), None, "{text}");
        }
    }
}
