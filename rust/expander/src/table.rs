//! The table of occurrences: "Records of 28 bytes by id: id in local seconds, UTC start, UTC end (8 each, signed), marks [..], three
//! zeros. The trailer stands last and points back". All numbers are little-endian.

use crate::event::{Event, Occurrence, Privacy};
use crate::times;
use crate::window::Window;
use crate::zone::Zone;

const RECORD_LENGTH: u16 = 28;
const TRAILER_LENGTH: usize = 12;
const VERSION: u16 = 1;

const BUSY: u8 = 1;
const ALL_DAY: u8 = 2;
const FLOATING: u8 = 4;

/// The ids of the records: "A secret event has no records, only the trailer."
pub fn record_ids(event: &Event, window: &Window) -> Vec<i64> {
    match event.privacy() {
        Privacy::Secret => Vec::new(),
        _ => event.ids(window.span()),
    }
}

/// The bytes that a table takes.
pub fn length(ids: &[i64]) -> usize {
    ids.len() * usize::from(RECORD_LENGTH) + TRAILER_LENGTH
}

/// Writes the table into exactly as many bytes as it takes.
pub fn write(event: &Event, zone: &Zone, ids: &[i64], bytes: &mut [u8]) {
    let (records, trailer) = bytes.split_at_mut(bytes.len() - TRAILER_LENGTH);
    for (id, record) in ids.iter().zip(records.chunks_exact_mut(usize::from(RECORD_LENGTH))) {
        write_record(event, zone, &event.occurrence(*id), record);
    }
    trailer[0..2].copy_from_slice(&RECORD_LENGTH.to_le_bytes());
    trailer[2..4].copy_from_slice(&VERSION.to_le_bytes());
    trailer[4..8].copy_from_slice(&(ids.len() as u32).to_le_bytes());
    trailer[8..12].copy_from_slice(&(records.len() as u32).to_le_bytes());
}

fn write_record(event: &Event, zone: &Zone, occurrence: &Occurrence, record: &mut [u8]) {
    let is_floating = event.zone().is_none();
    let (start, end) = times::start_and_end(occurrence, (!is_floating).then_some(zone));
    let mark = |is_set: bool, bit: u8| if is_set { bit } else { 0 };
    record[0..8].copy_from_slice(&occurrence.id.to_le_bytes());
    record[8..16].copy_from_slice(&start.to_le_bytes());
    record[16..24].copy_from_slice(&end.to_le_bytes());
    record[24] = mark(occurrence.details.busy, BUSY) | mark(occurrence.details.all_day, ALL_DAY) | mark(is_floating, FLOATING);
    record[25..28].fill(0);
}
