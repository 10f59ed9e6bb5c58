//! What is shown of a range: its weeks with their dates and numbers, the tallies, and notes.

use super::closures::Closures;
use super::dates::{self, DAY};
use super::iso_week::IsoWeek;
use smocurant::{Tallies, Week, WeekRange, Weeks};

/// A week with its date.
#[derive(Clone, Copy, Debug, PartialEq, Eq)]
pub struct DatedWeek {
    /// The second count of its Monday.
    pub monday: i64,
    /// Its number in the year.
    pub number: IsoWeek,
    /// What became of it.
    pub week: Week,
}

impl DatedWeek {
    /// The second count of its Thursday, which decides the year and the month that a week belongs to.
    pub fn thursday(&self) -> i64 {
        self.monday + 3 * DAY
    }

    /// The date of its Sunday.
    pub fn sunday(&self) -> String {
        dates::day(self.monday + 6 * DAY)
    }

    /// What became of it, in a word.
    pub fn class(&self) -> &'static str {
        match self.week {
            Week::Reported(_) => "reported",
            Week::Shut => "shut",
            Week::Missing => "missing",
        }
    }
}

/// A range of weeks, ready to be shown. It has times and numbers only, and no word of an event.
pub struct Report {
    pub range: WeekRange,
    pub weeks: Vec<DatedWeek>,
    pub tallies: Tallies,
    /// The uploads in the range.
    pub uploads: u64,
    /// Were all closures used?
    pub complete: bool,
    /// Sentences about what was counted, and how.
    pub notes: Vec<String>,
}

impl Report {
    /// The report on a log of so many uploads.
    pub fn new(weeks: &Weeks, log_length: usize, closures: &Closures) -> Report {
        let dated = |(monday, week)| DatedWeek { monday, number: IsoWeek::of_monday(monday), week };
        let uploads = weeks.iter().map(|(_, week)| week.uploads()).sum();
        Report {
            range: weeks.range(),
            weeks: weeks.iter().map(dated).collect(),
            tallies: weeks.tallies(),
            uploads,
            complete: closures.refused == 0,
            notes: notes(closures, log_length as u64 - uploads),
        }
    }

    /// The range in a sentence's part.
    pub fn span(&self) -> String {
        let (Some(first), Some(last)) = (self.weeks.first(), self.weeks.last()) else { return "No weeks".to_string() };
        let number = counted(self.weeks.len() as u64, "week");
        format!("{number} from Monday {} to Sunday {}, in UTC", dates::day(first.monday), last.sunday())
    }

    /// The weeks of a kind.
    pub fn weeks_of(&self, kind: Week) -> impl Iterator<Item = &DatedWeek> {
        self.weeks.iter().filter(move |dated| dated.week == kind)
    }

    /// The weeks of a kind as runs of weeks of one year that follow each other, each by its first and last one.
    pub fn runs(&self, kind: Week) -> Vec<(&DatedWeek, &DatedWeek)> {
        let runs = self.weeks.chunk_by(|one, next| one.week == next.week && one.number.year == next.number.year);
        runs.filter(|run| run[0].week == kind).map(|run| (&run[0], &run[run.len() - 1])).collect()
    }
}

/// `1 week`, `2 weeks`
pub fn counted(number: u64, what: &str) -> String {
    format!("{number} {what}{}", if number == 1 { "" } else { "s" })
}

/// A number in four letters or fewer: 9999, 10k, 999k, 1M.
pub fn short(number: u64) -> String {
    if number < 10_000 {
        return number.to_string();
    }
    let (mut number, mut unit) = (number, "");
    for next in ["k", "M", "G", "T", "P", "E"] {
        if number < 1_000 {
            break;
        }
        (number, unit) = (number / 1_000, next);
    }
    format!("{number}{unit}")
}

fn notes(closures: &Closures, outside: u64) -> Vec<String> {
    let mut notes = Vec::new();
    if closures.refused > 0 {
        let number = counted(closures.refused as u64, "closure");
        notes.push(format!("Incomplete: {number} could not be used, so a week shown as missing may have been shut."));
    }
    if closures.floating() {
        notes.push("Floating closures are counted as UTC.".to_string());
    }
    if outside > 0 {
        notes.push(format!("Outside of the range, and not counted: {}.", counted(outside, "upload")));
    }
    notes
}

#[cfg(test)]
mod tests {
    use super::*;

    #[test]
    fn numbers_fit_into_a_cell() {
        let cases = [(1, "1"), (9_999, "9999"), (10_000, "10k"), (999_999, "999k"), (1_000_000, "1M"), (u64::MAX, "18E")];
        for (number, expected) in cases {
            assert_eq!(short(number), expected);
        }
    }
}
