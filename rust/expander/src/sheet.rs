//! Reading a sheet back from its bytes: a reader "that starts from the trailer and hands out record by number".
//!
//! "It refuses with 34 to 40, in this order: too short for a trailer, unknown version, wrong record size, a distance that isn't 28 times the
//! count or isn't the bytes before the trailer, ids not strictly increasing, marks outside 0 to 7, zeros not zero." Each is judged over the
//! whole sheet before the next. "A record number at or over the count is 41."

use crate::answer::Refusal;

const TRAILER_LENGTH: usize = 12;
const RECORD_LENGTH: u16 = 28;
const VERSION: u16 = 1;
const LARGEST_MARKS: u8 = 7;

/// A sheet with nothing wrong in it.
#[derive(Clone, Copy, Debug, PartialEq, Eq)]
pub struct Sheet<'b> {
    version: u16,
    /// The bytes before the trailer.
    records: &'b [u8],
}

/// A record of a sheet.
#[derive(Clone, Copy, Debug, PartialEq, Eq)]
pub struct SheetRecord {
    /// The recurrence id, in local seconds.
    pub id: i64,
    /// The start in UTC.
    pub start: i64,
    /// The end in UTC.
    pub end: i64,
    /// "marks (1: busy 1, all-day 2, floating 4)"
    pub marks: u8,
    /// "three zeros"
    zeros: [u8; 3],
}

impl<'b> Sheet<'b> {
    /// Judges the bytes of a sheet.
    pub fn read(bytes: &'b [u8]) -> Result<Sheet<'b>, Refusal> {
        let before_trailer = bytes.len().checked_sub(TRAILER_LENGTH).ok_or(Refusal::SheetTooShort)?;
        let (records, trailer) = bytes.split_at(before_trailer);
        let version = judge_trailer(trailer, records.len())?;
        let sheet = Sheet { version, records };
        if sheet.records().zip(sheet.records().skip(1)).any(|(one, next)| next.id <= one.id) {
            return Err(Refusal::SheetIds);
        }
        if sheet.records().any(|record| record.marks > LARGEST_MARKS) {
            return Err(Refusal::SheetMarks);
        }
        if sheet.records().any(|record| record.zeros != [0; 3]) {
            return Err(Refusal::SheetZeros);
        }
        Ok(sheet)
    }

    /// The version.
    pub fn version(&self) -> u16 {
        self.version
    }

    /// The number of records.
    pub fn count(&self) -> u64 {
        self.records().count() as u64
    }

    /// The records in order.
    pub fn records(&self) -> impl Iterator<Item = SheetRecord> + 'b {
        self.records.chunks_exact(usize::from(RECORD_LENGTH)).map(SheetRecord::read)
    }

    /// The record of a number, counted from 0.
    pub fn record(&self, number: u64) -> Result<SheetRecord, Refusal> {
        self.records_from(number)?.next().ok_or(Refusal::RecordNumber)
    }

    /// The records from a number on, which must be the number of a record.
    pub fn records_from(&self, number: u64) -> Result<impl Iterator<Item = SheetRecord> + 'b, Refusal> {
        if number >= self.count() {
            return Err(Refusal::RecordNumber);
        }
        Ok(self.records().skip(number as usize))
    }
}

/// The version of a trailer with nothing wrong in it: "record size 28 (2), version 1 (2), count (4), distance from trailer to first record (4)".
fn judge_trailer(trailer: &[u8], bytes_before: usize) -> Result<u16, Refusal> {
    let record_length = u16::from_le_bytes([trailer[0], trailer[1]]);
    let version = u16::from_le_bytes([trailer[2], trailer[3]]);
    let count = u32::from_le_bytes([trailer[4], trailer[5], trailer[6], trailer[7]]);
    let distance = u32::from_le_bytes([trailer[8], trailer[9], trailer[10], trailer[11]]);
    if version != VERSION {
        return Err(Refusal::SheetVersion);
    }
    if record_length != RECORD_LENGTH {
        return Err(Refusal::SheetRecordSize);
    }
    let distance = u128::from(distance);
    if distance != u128::from(RECORD_LENGTH) * u128::from(count) || distance != bytes_before as u128 {
        return Err(Refusal::SheetDistance);
    }
    Ok(version)
}

impl SheetRecord {
    /// "id in local seconds, UTC start, UTC end (8 each, signed), marks [..], three zeros"
    fn read(bytes: &[u8]) -> SheetRecord {
        let number = |place: usize| i64::from_le_bytes(bytes[place..place + 8].try_into().expect("eight bytes"));
        SheetRecord { id: number(0), start: number(8), end: number(16), marks: bytes[24], zeros: [bytes[25], bytes[26], bytes[27]] }
    }
}
