//! Durations, by the ABNF of RFC 8984 (its text of 2024 has the same):
//!
//! ```text
//! dur-secfrac = "." 1*DIGIT                       dur-day  = 1*DIGIT "D"
//! dur-second  = 1*DIGIT [dur-secfrac] "S"         dur-week = 1*DIGIT "W"
//! dur-minute  = 1*DIGIT "M" [dur-second]          dur-cal  = (dur-week [dur-day] / dur-day)
//! dur-hour    = 1*DIGIT "H" [dur-minute]          duration = "P" (dur-cal [dur-time] / dur-time)
//! dur-time    = "T" (dur-hour / dur-minute / dur-second)
//! ```
//!
//! ABNF strings are of either case (RFC 5234, 2.3).

use super::date_time::is_legal_fraction;
use super::values;
use crate::answer::Refusal;
use crate::civil::DAY;
use crate::json::Value;

/// "total at most 366 days", "still counted with 86,400"
const LONGEST: u64 = 366 * DAY as u64;

/// A length in its two parts. They stay apart: a day is not always 24 hours long. Two lengths are equal where both parts are.
#[derive(Clone, Copy, Debug, Default, PartialEq, Eq)]
pub struct Duration {
    /// The weeks and days, in days: "A week is always the same as seven days."
    pub days: i64,
    /// The hours, minutes and seconds, in seconds.
    pub seconds: i64,
}

/// The parts of a duration; "a legal fraction answers 8".
pub fn read(value: &Value) -> Result<Duration, Refusal> {
    let word = values::word(value)?.to_ascii_uppercase();
    let units = parse(&word).ok_or(Refusal::Duration)?;
    if units.fraction.is_empty() && units.total() <= LONGEST {
        Ok(Duration { days: units.days as i64, seconds: units.seconds as i64 })
    } else if is_legal_fraction(units.fraction) && units.total() < LONGEST {
        Err(Refusal::Unsupported)
    } else {
        Err(Refusal::Duration)
    }
}

/// A word of the grammar, taken apart.
fn parse(word: &[u8]) -> Option<Units<'_>> {
    let mut units = Units { rest: word.strip_prefix(b"P")?, days: 0, seconds: 0, fraction: b"" };
    let has_weeks = units.take_days(b'W', 7);
    let has_days = units.take_days(b'D', 1);
    if let Some(time) = units.rest.strip_prefix(b"T") {
        units.rest = time;
        let has_hours = units.take_time(b'H', 3_600);
        let has_minutes = units.take_time(b'M', 60);
        // Seconds follow minutes, or stand alone: `PT1H5S` is not in the grammar.
        let has_seconds = (has_minutes || !has_hours) && units.take_seconds();
        if !(has_hours || has_minutes || has_seconds) {
            return None;
        }
    } else if !(has_weeks || has_days) {
        return None;
    }
    units.rest.is_empty().then_some(units)
}

/// What is left of a duration, and the sums so far. Sums stop at the largest number, which is over every limit.
struct Units<'w> {
    rest: &'w [u8],
    days: u64,
    /// The whole seconds of the part after the `T`.
    seconds: u64,
    /// The fraction with its point.
    fraction: &'w [u8],
}

impl<'w> Units<'w> {
    /// The whole seconds, counted with days of 86,400.
    fn total(&self) -> u64 {
        self.days.saturating_mul(DAY as u64).saturating_add(self.seconds)
    }

    /// Takes weeks or days, if these come next.
    fn take_days(&mut self, letter: u8, days: u64) -> bool {
        let number = self.take(letter);
        self.days = self.days.saturating_add(number.unwrap_or(0).saturating_mul(days));
        number.is_some()
    }

    /// Takes hours, minutes or seconds, if these come next.
    fn take_time(&mut self, letter: u8, seconds: u64) -> bool {
        let number = self.take(letter);
        self.seconds = self.seconds.saturating_add(number.unwrap_or(0).saturating_mul(seconds));
        number.is_some()
    }

    /// Takes digits and a letter, if these come next: the number.
    fn take(&mut self, letter: u8) -> Option<u64> {
        let (digits, after) = split_digits(self.rest);
        let rest = after.strip_prefix(&[letter]).filter(|_| !digits.is_empty())?;
        self.rest = rest;
        Some(number(digits))
    }

    /// Takes seconds with their fraction.
    fn take_seconds(&mut self) -> bool {
        let (digits, after) = split_digits(self.rest);
        if let (false, Some(decimals)) = (digits.is_empty(), after.strip_prefix(b".")) {
            let (decimals, after_decimals) = split_digits(decimals);
            if let (false, Some(rest)) = (decimals.is_empty(), after_decimals.strip_prefix(b"S")) {
                self.fraction = &after[..1 + decimals.len()];
                self.rest = rest;
                self.seconds = self.seconds.saturating_add(number(digits));
                return true;
            }
        }
        self.take_time(b'S', 1)
    }
}

fn split_digits(word: &[u8]) -> (&[u8], &[u8]) {
    word.split_at(word.iter().take_while(|byte| byte.is_ascii_digit()).count())
}

fn number(digits: &[u8]) -> u64 {
    digits.iter().fold(0u64, |number, digit| number.saturating_mul(10).saturating_add(u64::from(digit - b'0')))
}

#[cfg(test)]
mod tests {
    use super::*;
    use crate::json::{Kind, Text};

    fn duration(raw: &str) -> Result<Duration, Refusal> {
        read(&Value { place: 0, kind: Kind::String(Text { start: 1, raw: raw.as_bytes() }) })
    }

    #[test]
    fn durations() {
        for (word, days, seconds) in [
            ("PT1H", 0, 3_600),
            ("P1D", 1, 0),
            ("PT24H", 0, 86_400),
            ("PT1440M", 0, 86_400),
            ("P1DT24H", 1, 86_400),
            ("P2D", 2, 0),
            ("P1W", 7, 0),
            ("P7D", 7, 0),
            ("P1W2D", 9, 0),
            ("P0W9D", 9, 0),
            ("P1DT1H1M1S", 1, 3_661),
            ("P1W2DT3H", 9, 10_800),
            ("PT0S", 0, 0),
            ("P0D", 0, 0),
            ("PT90M", 0, 5_400),
            ("PT1H30M", 0, 5_400),
            ("PT1M5S", 0, 65),
            ("PT5S", 0, 5),
            ("P1WT5S", 7, 5),
            ("pt1h", 0, 3_600),
            ("p1w2dT3m", 9, 180),
            ("P000000000000000000000000000001D", 1, 0),
            ("P366D", 366, 0),
            ("P366DT0S", 366, 0),
            ("P52W2D", 366, 0),
            ("PT31622400S", 0, 31_622_400),
            ("P365DT24H", 365, 86_400),
            ("P1DT31536000S", 1, 31_536_000),
        ] {
            assert_eq!(duration(word), Ok(Duration { days, seconds }), "{word}");
        }
    }

    #[test]
    fn fractions() {
        for legal in ["PT0.5S", "P1DT1H1M1.003S", "PT1.5s", "P365DT23H59M59.9S", "PT0.00000000000000000000000001S"] {
            assert_eq!(duration(legal), Err(Refusal::Unsupported), "{legal}");
        }
        for wrong in ["PT0.0S", "PT0.50S", "PT.5S", "PT1.S", "PT1.5M", "P1.5D", "PT1H0.5S", "P366DT0.5S", "P367DT0.5S"] {
            assert_eq!(duration(wrong), Err(Refusal::Duration), "{wrong}");
        }
    }

    /// Over 366 days by a second, by a day or by far, in one part or in both.
    #[test]
    fn too_long_durations() {
        for wrong in ["P366DT1S", "P367D", "P53W", "P52W2DT1S", "P365DT86401S", "P1DT31536001S", "PT31622401S", "PT8784H0M1S"] {
            assert_eq!(duration(wrong), Err(Refusal::Duration), "{wrong}");
        }
        for digits in ["99999999999999999999999", "18446744073709551615", "18446744073709551616", "213503982334602"] {
            for wrong in [format!("P{digits}D"), format!("P{digits}W1DT1S"), format!("P1DT{digits}S"), format!("PT{digits}H")] {
                assert_eq!(duration(&wrong), Err(Refusal::Duration), "{wrong}");
            }
        }
    }

    #[test]
    fn wrong_durations() {
        for wrong in [
            "", "P", "PT", "T1H", "1D", "P1", "P1H", "PT1", "PT1D", "P1D2W", "P1DT", "PT1H5S", "PT1S1M", "P1M", "P1Y", "-P1D", "+P1D",
            "P-1D", "P1D ", " P1D", "P1D1D", "PT1H1H", "P1W1W", "PTT1H", "PPT1H",
        ] {
            assert_eq!(duration(wrong), Err(Refusal::Duration), "{wrong}");
        }
    }

    /// A backslash is 26 whatever the duration looks like.
    #[test]
    fn backslashes() {
        for wrong in [r"P1d\n", r"P1\u0044", r"PT0.5S\n", r"P\\", r"P367D\/"] {
            assert_eq!(duration(wrong), Err(Refusal::OtherValue), "{wrong}");
        }
    }
}
