//! The replay of a log of uploads: "Each week is reported (at least one upload in it), shut (none, and some record's span from UTC start to UTC
//! end touches it) or missing (neither)."

use crate::answer::Refusal;
use crate::sheet::{Sheet, SheetRecord};
use std::ops::Range;

/// The answer number when all is well.
const DONE: u32 = 0;

const WEEK: u64 = 604_800;

/// The Mondays 00:00:00 UTC, modulo a week: 1970-01-05 is one.
const MONDAY: i64 = 345_600;

const SHUT: i64 = -1;
const MISSING: i64 = -2;

/// Writes what became of each week into its place: the answer number, and how many weeks were reported, shut and missing.
///
/// After a refusal these are 0 and the places keep their values.
pub fn weeks(log: &[i64], sheet: &[u8], range_start: i64, range_end: i64, places: &mut [i64]) -> (u32, [u64; 3]) {
    match try_weeks(log, sheet, (range_start, range_end), places) {
        Ok(tallies) => (DONE, tallies),
        Err(refusal) => (refusal.number(), [0; 3]),
    }
}

/// "Refused with 30 to 33, judged in this order: a log out of order; a range not from one Monday to the same or a later one; bytes that break
/// document 01's layout, ids and marks included; a lent buffer with fewer places than weeks."
fn try_weeks(log: &[i64], sheet: &[u8], range: (i64, i64), places: &mut [i64]) -> Result<[u64; 3], Refusal> {
    if log.windows(2).any(|pair| pair[1] < pair[0]) {
        return Err(Refusal::LogOrder);
    }
    let range = WholeWeeks::new(range.0, range.1)?;
    let sheet = Sheet::read(sheet).map_err(|_| Refusal::Sheet)?;
    if range.count() > places.len() as u64 {
        return Err(Refusal::Places);
    }
    let weeks = uploads_of_weeks(&range, log).into_iter().zip(touched_weeks(&range, &sheet));
    let mut tallies = [0; 3];
    for (place, (uploads, is_touched)) in places.iter_mut().zip(weeks) {
        let (kind, number) = match (uploads, is_touched) {
            (1.., _) => (0, uploads),
            (_, true) => (1, SHUT),
            (_, false) => (2, MISSING),
        };
        *place = number;
        tallies[kind] += 1;
    }
    Ok(tallies)
}

/// A range of whole weeks.
struct WholeWeeks {
    start: i64,
    end: i64,
}

impl WholeWeeks {
    fn new(start: i64, end: i64) -> Result<WholeWeeks, Refusal> {
        let is_monday = |instant: i64| instant.rem_euclid(WEEK as i64) == MONDAY;
        if is_monday(start) && is_monday(end) && start <= end {
            Ok(WholeWeeks { start, end })
        } else {
            Err(Refusal::WeekRange)
        }
    }

    /// The seconds from the range's start to an instant, or to that end of the range which is nearest to it.
    fn seconds_to(&self, instant: i64) -> u64 {
        instant.clamp(self.start, self.end).abs_diff(self.start)
    }

    /// "the range's seconds divided by 604,800"
    fn count(&self) -> u64 {
        self.seconds_to(self.end) / WEEK
    }

    /// The Monday of a week, or of the one after the range.
    fn monday(&self, week: usize) -> i64 {
        (i128::from(self.start) + week as i128 * i128::from(WEEK)) as i64
    }

    /// The weeks of the range that a record's span touches: they end after its start and begin before its end.
    fn touched(&self, record: &SheetRecord) -> Range<usize> {
        // "A span takes in its start and not its end; one with its end at or before its start touches the week of its start."
        let end = if record.start < record.end { record.end } else { record.start.saturating_add(1) };
        (self.seconds_to(record.start) / WEEK) as usize..self.seconds_to(end).div_ceil(WEEK) as usize
    }
}

/// The number of uploads in each week. A week is from its Monday to the next, and the log is in order.
fn uploads_of_weeks(range: &WholeWeeks, log: &[i64]) -> Vec<i64> {
    let mut rest = &log[log.partition_point(|upload| *upload < range.start)..];
    let uploads_of = |week: usize| {
        let next_monday = range.monday(week + 1);
        let uploads = rest.iter().take_while(|upload| **upload < next_monday).count();
        rest = &rest[uploads..];
        uploads as i64
    };
    (0..range.count() as usize).map(uploads_of).collect()
}

/// Whether some record touches each week. Where a span's weeks begin one more span is open, and one less after its last week.
fn touched_weeks(range: &WholeWeeks, sheet: &Sheet) -> Vec<bool> {
    let mut changes = vec![0i64; range.count() as usize + 1];
    for record in sheet.records() {
        let weeks = range.touched(&record);
        changes[weeks.start] += 1;
        changes[weeks.end] -= 1;
    }
    changes.pop();
    let mut open = 0;
    let step = |change: i64| {
        open += change;
        open > 0
    };
    changes.into_iter().map(step).collect()
}
