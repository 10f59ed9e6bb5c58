//! The calls that read a sheet back, with the parameters and answers of the exported functions. After a refusal every number is 0, and what
//! is lent keeps its values.

use crate::sheet::Sheet;

/// The answer number when all is well.
const DONE: u32 = 0;

/// Judges a sheet: the answer number, its version, and the number of its records.
pub fn read(sheet: &[u8]) -> (u32, u32, u64) {
    match Sheet::read(sheet) {
        Ok(sheet) => (DONE, u32::from(sheet.version()), sheet.count()),
        Err(refusal) => (refusal.number(), 0, 0),
    }
}

/// One record by its number: the answer number, the id, the UTC start, the UTC end, and the marks.
pub fn record(sheet: &[u8], number: u64) -> (u32, i64, i64, i64, u32) {
    match Sheet::read(sheet).and_then(|sheet| sheet.record(number)) {
        Ok(record) => (DONE, record.id, record.start, record.end, u32::from(record.marks)),
        Err(refusal) => (refusal.number(), 0, 0, 0, 0),
    }
}

/// The records from a number on, as many as there are elements for in all four slices: the answer number, and how many they are. Elements
/// after them keep their values.
pub fn records(sheet: &[u8], first: u64, ids: &mut [i64], starts: &mut [i64], ends: &mut [i64], marks: &mut [u32]) -> (u32, u64) {
    let records = match Sheet::read(sheet).and_then(|sheet| sheet.records_from(first)) {
        Ok(records) => records,
        Err(refusal) => return (refusal.number(), 0),
    };
    let elements = ids.iter_mut().zip(starts).zip(ends).zip(marks);
    let mut count = 0;
    for ((((id, start), end), marks), record) in elements.zip(records) {
        (*id, *start, *end, *marks) = (record.id, record.start, record.end, u32::from(record.marks));
        count += 1;
    }
    (DONE, count)
}
