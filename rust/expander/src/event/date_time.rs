//! Date-times: `YYYY-MM-DDTHH:MM:SS`, with or without a fraction of a second and a `Z`.

use super::values;
use crate::answer::Refusal;
use crate::civil::{Date, DAY};
use crate::json::Value;
use std::ops::RangeInclusive;

/// The years of starts and of recurrence ids.
const YEARS: RangeInclusive<i64> = 1601..=9998;

/// The years of `until`.
const UNTIL_YEARS: RangeInclusive<i64> = 1601..=9999;

/// The length of a date-time without a fraction.
const LENGTH: usize = 19;

/// A LocalDateTime that can be an occurrence.
pub fn occurrence(value: &Value) -> Result<i64, Refusal> {
    local(values::word(value)?, YEARS)
}

/// A LocalDateTime in a member's name.
pub fn occurrence_name(name: &[u8]) -> Result<i64, Refusal> {
    local(name, YEARS)
}

/// The LocalDateTime of `until`.
pub fn until(value: &Value) -> Result<i64, Refusal> {
    local(values::word(value)?, UNTIL_YEARS)
}

/// The UTCDateTime of `updated`; only its form is asked for.
pub fn updated(value: &Value) -> Result<(), Refusal> {
    let word = values::word(value)?;
    let (whole, rest) = word.split_at_checked(LENGTH).ok_or(Refusal::DateTime)?;
    seconds(whole, 0..=9999).ok_or(Refusal::DateTime)?;
    match rest.split_last() {
        Some((b'Z', fraction)) if fraction.is_empty() || is_legal_fraction(fraction) => Ok(()),
        _ => Err(Refusal::DateTime),
    }
}

/// "A fraction that is non-zero with no trailing zero answers 8"; any other is a bad date-time.
fn local(word: &[u8], years: RangeInclusive<i64>) -> Result<i64, Refusal> {
    let (whole, fraction) = word.split_at_checked(LENGTH).ok_or(Refusal::DateTime)?;
    let seconds = seconds(whole, years).ok_or(Refusal::DateTime)?;
    if fraction.is_empty() {
        Ok(seconds)
    } else if is_legal_fraction(fraction) {
        Err(Refusal::Unsupported)
    } else {
        Err(Refusal::DateTime)
    }
}

/// A point and digits, not zero and with no trailing zero: the last digit is none.
pub fn is_legal_fraction(fraction: &[u8]) -> bool {
    match fraction {
        [b'.', digits @ ..] => digits.iter().all(u8::is_ascii_digit) && digits.last().is_some_and(|last| *last != b'0'),
        _ => false,
    }
}

/// The local seconds of a date-time without a fraction.
fn seconds(word: &[u8], years: RangeInclusive<i64>) -> Option<i64> {
    let is_formed = word.iter().zip(b"0000-00-00T00:00:00").all(|(byte, form)| match form {
        b'0' => byte.is_ascii_digit(),
        _ => byte == form,
    });
    if !is_formed || word.len() != LENGTH {
        return None;
    }
    let part = |range: std::ops::Range<usize>| word[range].iter().fold(0, |number, digit| number * 10 + i64::from(digit - b'0'));
    let date = Date { year: part(0..4), month: part(5..7), day: part(8..10) };
    let (hour, minute, second) = (part(11..13), part(14..16), part(17..19));
    let is_real = years.contains(&date.year) && date.is_real() && hour < 24 && minute < 60 && second < 60;
    is_real.then(|| date.number() * DAY + hour * 3_600 + minute * 60 + second)
}

#[cfg(test)]
mod tests {
    use super::*;
    use crate::json::{Kind, Text};

    fn value(raw: &str) -> Value<'_> {
        Value { place: 0, kind: Kind::String(Text { start: 1, raw: raw.as_bytes() }) }
    }

    #[test]
    fn local_date_times() {
        assert_eq!(occurrence(&value("1970-01-02T00:00:01")), Ok(86_401));
        assert_eq!(occurrence(&value("2018-01-15T13:00:00")), Ok(0x5a5c_a5d0));
        assert_eq!(occurrence(&value("1601-01-01T00:00:00")), Ok(-11_644_473_600));
        assert_eq!(occurrence(&value("9998-12-31T23:59:59")), Ok(253_370_764_799));
        assert_eq!(until(&value("9999-12-31T23:59:59")), Ok(253_402_300_799));
        for legal in ["2024-01-01T00:00:00.5", "2024-01-01T00:00:00.003", "2024-01-01T00:00:00.1234567890123456789"] {
            assert_eq!(occurrence(&value(legal)), Err(Refusal::Unsupported), "{legal}");
        }
    }

    #[test]
    fn wrong_local_date_times() {
        for wrong in [
            "",
            "2024-01-01",
            "2024-01-01T00:00",
            "2024-01-01t00:00:00",
            "2024-01-01 00:00:00",
            "2024-01-01T00:00:00Z",
            "1600-12-31T23:59:59",
            "9999-01-01T00:00:00",
            "2023-02-29T00:00:00",
            "1900-02-29T00:00:00",
            "2024-00-01T00:00:00",
            "2024-13-01T00:00:00",
            "2024-04-31T00:00:00",
            "2024-01-00T00:00:00",
            "2024-01-01T24:00:00",
            "2024-01-01T00:60:00",
            "2024-01-01T00:00:60",
            "2024-01-01T00:00:00.",
            "2024-01-01T00:00:00.0",
            "2024-01-01T00:00:00.50",
            "2024-01-01T00:00:00.5Z",
            "2024-01-01T00:00:00,5",
            "2023-02-29T00:00:00.5",
            "+024-01-01T00:00:00",
            "20240101T000000",
        ] {
            assert_eq!(occurrence(&value(wrong)), Err(Refusal::DateTime), "{wrong}");
        }
        assert_eq!(until(&value("1600-01-01T00:00:00")), Err(Refusal::DateTime));
    }

    /// A backslash is 26 whatever the date-time looks like, and another kind of value 20.
    #[test]
    fn backslashes_and_other_kinds() {
        let other = Value { place: 0, kind: Kind::Null };
        for read in [occurrence, until, |value: &Value| updated(value).map(|()| 0)] {
            for word in
                [r"2024-01-01T00:00:00\u005a", r"2024-01-01\u005400:00:00", r"2023-02-29T00:00:00\n", r"\\", r"2024-01-01T00:00:00.5\/"]
            {
                assert_eq!(read(&value(word)), Err(Refusal::OtherValue), "{word}");
            }
            assert_eq!(read(&other), Err(Refusal::WrongType));
        }
    }

    #[test]
    fn updated_date_times() {
        for right in ["0000-02-29T00:00:00Z", "9999-12-31T23:59:59Z", "2010-10-10T10:10:10.003Z"] {
            assert_eq!(updated(&value(right)), Ok(()), "{right}");
        }
        for wrong in [
            "2010-10-10T10:10:10",
            "2010-10-10T10:10:10z",
            "2010-10-10T10:10:10.000Z",
            "2010-10-10T10:10:10.10Z",
            "2010-10-10T10:10:10.Z",
            "2010-10-10T10:10:60Z",
            "2010-10-10T10:10:10+00:00",
            "2010-02-29T10:10:10Z",
            "2010-10-10T10:10:10ZZ",
            "Z",
        ] {
            assert_eq!(updated(&value(wrong)), Err(Refusal::DateTime), "{wrong}");
        }
    }
}
