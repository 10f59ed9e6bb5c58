//! The records of a table.

use crate::calls::{done, place};
use crate::raw;
use crate::status::Status;
use std::iter::FusedIterator;
use std::ops::Range;

/// What the marks of a record mean.
const BUSY: u32 = 1;
const ALL_DAY: u32 = 2;
const FLOATING: u32 = 4;

/// One occurrence.
#[derive(Clone, Copy, Debug, PartialEq, Eq, Hash)]
pub struct Record {
    /// The recurrence id, in local seconds from 1970-01-01T00:00:00.
    pub id: i64,
    /// The start in UTC, in seconds from 1970-01-01T00:00:00Z; of a floating event the local start.
    pub start: i64,
    /// The end, like the start. Weeks and days of a length are added to the local start, hours, minutes and seconds in UTC: a day may take 23
    /// or 25 hours. Where the offset jumps by more than a day, the end may lie before the start.
    pub end: i64,
    /// The time is taken.
    pub busy: bool,
    /// It is shown without a time of day.
    pub all_day: bool,
    /// The event has no time zone.
    pub floating: bool,
}

impl Record {
    /// The record of the numbers that the library hands out.
    fn new(id: i64, start: i64, end: i64, marks: u32) -> Record {
        Record { id, start, end, busy: marks & BUSY != 0, all_day: marks & ALL_DAY != 0, floating: marks & FLOATING != 0 }
    }

    /// The record of a sheet with this number.
    pub(crate) fn of_sheet(sheet: &[u8], number: usize) -> Result<Record, Status> {
        let (answer, id, start, end, marks) = raw::record(sheet, number as u64);
        done(answer).map(|()| Record::new(id, start, end, marks))
    }
}

/// The records of a table, by id.
#[derive(Clone, Debug)]
pub struct Records {
    ids: Vec<i64>,
    starts: Vec<i64>,
    ends: Vec<i64>,
    marks: Vec<u32>,
    /// The numbers of the records that are still to come.
    rest: Range<usize>,
}

impl Records {
    /// The records of a sheet that has this many, by one call.
    pub(crate) fn of_sheet(sheet: &[u8], count: usize) -> Result<Records, Status> {
        let numbers = || vec![0; count];
        let (mut ids, mut starts, mut ends, mut marks) = (numbers(), numbers(), numbers(), vec![0; count]);
        if count > 0 {
            let (answer, written) = raw::records(sheet, 0, &mut ids, &mut starts, &mut ends, &mut marks);
            done(answer)?;
            assert_eq!(place(written), count, "all four slices have room for all records");
        }
        Ok(Records { ids, starts, ends, marks, rest: 0..count })
    }

    fn record(&self, number: usize) -> Record {
        Record::new(self.ids[number], self.starts[number], self.ends[number], self.marks[number])
    }
}

impl Iterator for Records {
    type Item = Record;

    fn next(&mut self) -> Option<Record> {
        let number = self.rest.next()?;
        Some(self.record(number))
    }

    fn nth(&mut self, skipped: usize) -> Option<Record> {
        let number = self.rest.nth(skipped)?;
        Some(self.record(number))
    }

    fn size_hint(&self) -> (usize, Option<usize>) {
        self.rest.size_hint()
    }
}

impl DoubleEndedIterator for Records {
    fn next_back(&mut self) -> Option<Record> {
        let number = self.rest.next_back()?;
        Some(self.record(number))
    }
}

impl ExactSizeIterator for Records {}

impl FusedIterator for Records {}
