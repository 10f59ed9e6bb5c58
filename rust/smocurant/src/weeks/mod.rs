//! The replay of a log: which weeks had uploads, which were shut, and which went missing.

mod error;
mod range;

use crate::calls::done;
use crate::raw;
use crate::status::Status;
use crate::table::empty_sheet;
use std::num::NonZeroU64;

pub use error::WeeksError;
pub use range::WeekRange;

/// The library's numbers for a week without uploads.
const SHUT: i64 = -1;
const MISSING: i64 = -2;

/// What became of a week.
#[derive(Clone, Copy, Debug, PartialEq, Eq, Hash)]
pub enum Week {
    /// It had this many uploads.
    Reported(NonZeroU64),
    /// It had none, and a record touches it.
    Shut,
    /// It had none, and no record touches it.
    Missing,
}

impl Week {
    /// The week that a place stands for after a call that is done: the number of uploads, or -1 for shut, or -2 for missing.
    pub fn of_place(place: i64) -> Option<Week> {
        match place {
            SHUT => Some(Week::Shut),
            MISSING => Some(Week::Missing),
            uploads => u64::try_from(uploads).ok().and_then(NonZeroU64::new).map(Week::Reported),
        }
    }

    /// The number of uploads.
    pub fn uploads(self) -> u64 {
        match self {
            Week::Reported(uploads) => uploads.get(),
            Week::Shut | Week::Missing => 0,
        }
    }
}

/// How many weeks there are of each kind.
#[derive(Clone, Copy, Debug, Default, PartialEq, Eq, Hash)]
pub struct Tallies {
    /// Weeks with uploads.
    pub reported: u64,
    /// Weeks without uploads that a record touches.
    pub shut: u64,
    /// All other weeks.
    pub missing: u64,
}

/// The weeks of a range, in order.
#[derive(Clone, Debug, PartialEq, Eq)]
pub struct Weeks {
    range: WeekRange,
    /// As the library writes them.
    places: Vec<i64>,
    tallies: Tallies,
}

impl Weeks {
    /// The range.
    pub fn range(&self) -> WeekRange {
        self.range
    }

    /// How many weeks there are of each kind.
    pub fn tallies(&self) -> Tallies {
        self.tallies
    }

    /// The number of weeks.
    pub fn len(&self) -> usize {
        self.places.len()
    }

    /// Are there no weeks?
    pub fn is_empty(&self) -> bool {
        self.places.is_empty()
    }

    /// Each week with its Monday, in order.
    pub fn iter(&self) -> impl Iterator<Item = (i64, Week)> + Clone + '_ {
        let week = |place: &i64| Week::of_place(*place).expect("the library writes uploads, -1 or -2");
        self.range.mondays().zip(self.places.iter().map(week))
    }

    /// The places as the library writes them: the number of uploads, or -1 for shut, or -2 for missing.
    pub fn places(&self) -> &[i64] {
        &self.places
    }

    /// Shuts the missing weeks that another sheet shuts.
    fn shut(&mut self, others: &[i64]) {
        for (place, other) in self.places.iter_mut().zip(others) {
            if *place == MISSING && *other == SHUT {
                *place = SHUT;
                self.tallies.missing -= 1;
                self.tallies.shut += 1;
            }
        }
    }
}

/// The weeks of a log of upload instants, beside the sheets of closure calendars. A week is shut if any of the sheets shuts it. The instants
/// are seconds from 1970-01-01T00:00:00Z and do not decrease.
///
/// The sheets are [`Table`](crate::Table)s or their bytes. With none of them, as `[[0; 0]; 0]`, no week is shut. They are judged one after the
/// other; the first refusal is given.
///
/// ```
/// use smocurant::{expand_to_vec, time, weeks, Tallies, Week, WeekRange, WeeksError, Window, ZoneTable};
///
/// let closure = br#"{"@type": "Event", "uid": "1", "updated": "2026-01-01T00:00:00Z", "start": "2026-01-14T00:00:00", "duration": "P2D"}"#;
/// let sheet = expand_to_vec(closure, &ZoneTable::floating(), Window::year(2026)?)?;
/// let range = WeekRange::new(time::seconds(2026, 1, 5), time::seconds(2026, 1, 26))?;
/// let log = [time::seconds(2026, 1, 6), time::seconds(2026, 1, 7)];
///
/// let weeks = weeks(&log, [&sheet], range)?;
/// assert_eq!(weeks.tallies(), Tallies { reported: 1, shut: 1, missing: 1 });
/// let (monday, week) = weeks.iter().next().unwrap();
/// assert_eq!((monday, week.uploads()), (range.start(), 2));
/// assert_eq!(weeks.iter().filter(|(_, week)| *week == Week::Shut).count(), 1);
///
/// let damaged = &sheet.as_bytes()[1..];
/// assert_eq!(smocurant::weeks(&log, [sheet.as_bytes(), damaged], range), Err(WeeksError::Sheet { place: 1 }));
/// assert_eq!(smocurant::weeks(&[1, 0], [damaged], range), Err(WeeksError::Log { place: 1 }));
/// # Ok::<(), Box<dyn std::error::Error>>(())
/// ```
pub fn weeks<S: AsRef<[u8]>>(log: &[i64], sheets: impl IntoIterator<Item = S>, range: WeekRange) -> Result<Weeks, WeeksError> {
    let mut sheets = sheets.into_iter();
    let first = sheets.next();
    let first = first.as_ref().map_or_else(|| empty_sheet(), S::as_ref);
    let mut places = room(range);
    let tallies = weeks_into(log, first, range, &mut places).map_err(|status| error(status, log, 0, range))?;
    let mut weeks = Weeks { range, places, tallies };
    // The log has been gone through. What other sheets shut is asked for without it.
    let mut others = Vec::new();
    for (place, sheet) in (1..).zip(sheets) {
        if others.len() < weeks.len() {
            others = room(range);
        }
        weeks_into(&[], sheet.as_ref(), range, &mut others).map_err(|status| error(status, &[], place, range))?;
        weeks.shut(&others);
    }
    Ok(weeks)
}

/// The weeks of a log beside one sheet, written into lent places as [`Weeks::places`] has them. Places after the last week keep their values.
/// After a refusal all of them do.
///
/// ```
/// use smocurant::{weeks_into, Status, Table, Tallies, WeekRange};
///
/// let sheet = Table::empty();
/// let range = WeekRange::new(345_600, 345_600 + 2 * 604_800)?;
/// let mut places = [7; 3];
/// let tallies = weeks_into(&[345_599, 345_600], sheet.as_bytes(), range, &mut places)?;
/// assert_eq!(tallies, Tallies { reported: 1, shut: 0, missing: 1 });
/// assert_eq!(places, [1, -2, 7]);
/// assert_eq!(weeks_into(&[], sheet.as_bytes(), range, &mut places[..1]), Err(Status::Places));
/// # Ok::<(), Status>(())
/// ```
pub fn weeks_into(log: &[i64], sheet: &[u8], range: WeekRange, places: &mut [i64]) -> Result<Tallies, Status> {
    let (answer, [reported, shut, missing]) = raw::weeks(log, sheet, range.start(), range.end(), places);
    done(answer)?;
    Ok(Tallies { reported, shut, missing })
}

/// A place for each week. Where there is no memory for them there are none, and the library refuses.
fn room(range: WeekRange) -> Vec<i64> {
    let mut places = Vec::new();
    let Ok(weeks) = usize::try_from(range.number_of_weeks()) else { return places };
    if places.try_reserve_exact(weeks).is_ok() {
        places.resize(weeks, 0);
    }
    places
}

/// What a refusal means, beside the sheet at a place.
fn error(status: Status, log: &[i64], place: usize, range: WeekRange) -> WeeksError {
    match status {
        Status::LogOrder => WeeksError::Log { place: 1 + log.windows(2).take_while(|pair| pair[0] <= pair[1]).count() },
        Status::WeekRange => WeeksError::Range,
        Status::Sheet => WeeksError::Sheet { place },
        Status::Places => WeeksError::Memory { weeks: range.number_of_weeks() },
        other => unreachable!("weeks are refused with 30 to 33, and not {}", other.number()),
    }
}

#[cfg(test)]
mod tests {
    use super::*;
    use generator::examples::replays::sheet;

    const WEEK: i64 = 604_800;
    const MONDAY: i64 = 345_600;
    const NONE: [[u8; 0]; 0] = [];

    fn range(weeks: i64) -> WeekRange {
        WeekRange::new(MONDAY, MONDAY + weeks * WEEK).unwrap()
    }

    #[test]
    fn any_sheet_shuts_a_week_and_uploads_count_once() {
        let log = [MONDAY, MONDAY, MONDAY + 4 * WEEK - 1, MONDAY + 4 * WEEK];
        let sheets = [sheet(&[(MONDAY, MONDAY + WEEK)]), sheet(&[(MONDAY + WEEK, MONDAY)]), sheet(&[(MONDAY + WEEK, MONDAY + WEEK + 1)])];
        let weeks = weeks(&log, &sheets, range(4)).unwrap();
        assert_eq!(weeks.places(), [2, -1, -2, 1]);
        assert_eq!(weeks.tallies(), Tallies { reported: 2, shut: 1, missing: 1 });
        let two = NonZeroU64::new(2).unwrap();
        assert_eq!(weeks.iter().take(2).collect::<Vec<_>>(), [(MONDAY, Week::Reported(two)), (MONDAY + WEEK, Week::Shut)]);
    }

    #[test]
    fn no_sheets() {
        let found = weeks(&[MONDAY], NONE, range(2)).unwrap();
        assert_eq!(found.places(), [1, -2]);
        assert!(weeks(&[MONDAY], NONE, range(0)).unwrap().is_empty());
    }

    #[test]
    fn errors_say_where() {
        let (good, bad) = (sheet(&[(0, 1)]), vec![0; 12]);
        assert_eq!(weeks(&[], [&good, &good, &bad], range(1)), Err(WeeksError::Sheet { place: 2 }));
        assert_eq!(weeks(&[1, 1, 3, 2, 1], [&bad], range(1)), Err(WeeksError::Log { place: 3 }));
        let sentence = "The log is out of order: upload 3, counted from 0, is earlier than the one before it. (answer 30)";
        assert_eq!(WeeksError::Log { place: 3 }.to_string(), sentence);
    }

    #[test]
    fn more_weeks_than_memory() {
        let widest = WeekRange::new(i64::MIN + 55_808, i64::MAX - 574_207).unwrap();
        let error = WeeksError::Memory { weeks: widest.number_of_weeks() };
        assert_eq!(weeks(&[], NONE, widest), Err(error));
        assert_eq!(error.status(), Status::Places);
        assert_eq!(weeks(&[], [[0; 3]], widest), Err(WeeksError::Sheet { place: 0 }));
    }
}
