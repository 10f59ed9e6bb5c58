//! Second counts from 1970-01-01T00:00:00 and how people write them.

const DAY: i64 = 86_400;

/// The seconds to a date's midnight.
pub fn seconds(year: i64, month: i64, day: i64) -> i64 {
    // Years from March on, so that the leap day is the last of its year.
    let shifted = if month <= 2 { year - 1 } else { year };
    let leap_days = shifted.div_euclid(4) - shifted.div_euclid(100) + shifted.div_euclid(400);
    let in_year = (153 * ((month + 9) % 12) + 2) / 5 + day - 1;
    (365 * shifted + leap_days + in_year - 719_468) * DAY
}

/// Year, month and day of a second count.
pub fn date(seconds: i64) -> (i64, i64, i64) {
    let day = seconds.div_euclid(DAY) + 719_468;
    let (cycle, in_cycle) = (day.div_euclid(146_097), day.rem_euclid(146_097));
    let year_of_cycle = (in_cycle - in_cycle / 1_460 + in_cycle / 36_524 - in_cycle / 146_096) / 365;
    let in_year = in_cycle - (365 * year_of_cycle + year_of_cycle / 4 - year_of_cycle / 100);
    let shifted_month = (5 * in_year + 2) / 153;
    let month = if shifted_month < 10 { shifted_month + 3 } else { shifted_month - 9 };
    (400 * cycle + year_of_cycle + i64::from(month <= 2), month, in_year - (153 * shifted_month + 2) / 5 + 1)
}

/// `YYYY-MM-DDTHH:MM:SS` of a second count.
pub fn written(seconds: i64) -> String {
    let (year, month, day) = date(seconds);
    let time = seconds.rem_euclid(DAY);
    format!("{year:04}-{month:02}-{day:02}T{:02}:{:02}:{:02}", time / 3_600, time / 60 % 60, time % 60)
}

/// The second count of `YYYY-MM-DD` or `YYYY-MM-DDTHH:MM:SS`, if it is a real date and time.
pub fn read(text: &str) -> Option<i64> {
    let whole = if text.len() == 10 { format!("{text}T00:00:00") } else { text.to_string() };
    let form = b"0000-00-00T00:00:00";
    let fits = |(byte, form): (&u8, &u8)| if *form == b'0' { byte.is_ascii_digit() } else { byte == form };
    if whole.len() != form.len() || !whole.as_bytes().iter().zip(form).all(fits) {
        return None;
    }
    let part = |place: std::ops::Range<usize>| whole[place].parse::<i64>().ok();
    let midnight = seconds(part(0..4)?, part(5..7)?, part(8..10)?);
    let count = midnight + part(11..13)? * 3_600 + part(14..16)? * 60 + part(17..19)?;
    // A day or an hour that does not exist comes out as another one.
    (written(count) == whole).then_some(count)
}

#[cfg(test)]
mod tests {
    use super::*;

    #[test]
    fn there_and_back() {
        for text in ["1970-01-01T00:00:00", "1600-02-29T23:59:59", "2024-02-29T12:00:01", "9999-12-31T23:59:59", "0000-03-01T00:00:00"] {
            assert_eq!(written(read(text).unwrap()), text);
        }
        assert_eq!(read("2024-01-01"), Some(1_704_067_200));
        for wrong in
            ["2023-02-29", "2024-13-01", "2024-01-01T24:00:00", "2024-1-1", "", "2024-01-01T00:00", "2024-01-01 00:00:00", "ä024-01-01"]
        {
            assert_eq!(read(wrong), None, "{wrong}");
        }
    }
}
