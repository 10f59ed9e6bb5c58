//! The exported functions of the archive, made safe: numbers and slices in, numbers out.
//!
//! They ask for nothing of their arguments and refuse instead; the types below are all that a caller owes them. A slice is passed as its
//! pointer and its length, which are two parameters.
#![allow(unsafe_code)]

use crate::zone::Transition;

mod exported {
    use super::Transition;

    // The build script says where the archive is.
    extern "C" {
        pub fn smocurant_expand(
            text: *const u8,
            text_length: usize,
            zone_name: *const u8,
            zone_name_length: usize,
            initial_offset: i64,
            instants: *const i64,
            instants_length: usize,
            offsets: *const i64,
            offsets_length: usize,
            window_start: i64,
            window_end: i64,
            buffer: *mut u8,
            buffer_length: usize,
            length: *mut u64,
        ) -> u32;

        pub fn smocurant_expand_entries(
            text: *const u8,
            text_length: usize,
            zone_name: *const u8,
            zone_name_length: usize,
            initial_offset: i64,
            entries: *const Transition,
            entries_length: usize,
            window_start: i64,
            window_end: i64,
            buffer: *mut u8,
            buffer_length: usize,
            length: *mut u64,
        ) -> u32;

        pub fn smocurant_title(text: *const u8, text_length: usize, date: i64, start: *mut u64, length: *mut u64) -> u32;

        pub fn smocurant_description(text: *const u8, text_length: usize, date: i64, start: *mut u64, length: *mut u64) -> u32;

        pub fn smocurant_locate(text: *const u8, text_length: usize, place: *mut u64) -> u32;

        pub fn smocurant_weeks(
            log: *const i64,
            log_length: usize,
            sheet: *const u8,
            sheet_length: usize,
            range_start: i64,
            range_end: i64,
            places: *mut i64,
            places_length: usize,
            reported: *mut u64,
            shut: *mut u64,
            missing: *mut u64,
        ) -> u32;

        pub fn smocurant_read(sheet: *const u8, sheet_length: usize, version: *mut u32, count: *mut u64) -> u32;

        pub fn smocurant_record(
            sheet: *const u8,
            sheet_length: usize,
            number: u64,
            id: *mut i64,
            start: *mut i64,
            end: *mut i64,
            marks: *mut u32,
        ) -> u32;

        pub fn smocurant_records(
            sheet: *const u8,
            sheet_length: usize,
            first: u64,
            ids: *mut i64,
            ids_length: usize,
            starts: *mut i64,
            starts_length: usize,
            ends: *mut i64,
            ends_length: usize,
            marks: *mut u32,
            marks_length: usize,
            count: *mut u64,
        ) -> u32;
    }
}

/// Writes the table of an event's occurrences in a window into the buffer: the answer number, and the table's length.
#[allow(clippy::too_many_arguments)] // the exported function has them
pub fn expand(
    text: &[u8],
    zone_name: &[u8],
    initial_offset: i64,
    instants: &[i64],
    offsets: &[i64],
    window_start: i64,
    window_end: i64,
    buffer: &mut [u8],
) -> (u32, u64) {
    let mut length = 0;
    // SAFETY: each pointer and length come from one slice, which lives through the call. Buffer and length are borrowed alone, so the function
    // may write there. It keeps no pointer, and is proved to touch nothing outside of the slices.
    let answer = unsafe {
        exported::smocurant_expand(
            text.as_ptr(),
            text.len(),
            zone_name.as_ptr(),
            zone_name.len(),
            initial_offset,
            instants.as_ptr(),
            instants.len(),
            offsets.as_ptr(),
            offsets.len(),
            window_start,
            window_end,
            buffer.as_mut_ptr(),
            buffer.len(),
            &mut length,
        )
    };
    (answer, length)
}

/// As [`expand`], with the zone table's entries as structs.
#[allow(clippy::too_many_arguments)] // the exported function has them
pub fn expand_entries(
    text: &[u8],
    zone_name: &[u8],
    initial_offset: i64,
    entries: &[Transition],
    window_start: i64,
    window_end: i64,
    buffer: &mut [u8],
) -> (u32, u64) {
    let mut length = 0;
    // SAFETY: as in `expand`; `Transition` is `repr(C)` with the fields of the exported struct.
    let answer = unsafe {
        exported::smocurant_expand_entries(
            text.as_ptr(),
            text.len(),
            zone_name.as_ptr(),
            zone_name.len(),
            initial_offset,
            entries.as_ptr(),
            entries.len(),
            window_start,
            window_end,
            buffer.as_mut_ptr(),
            buffer.len(),
            &mut length,
        )
    };
    (answer, length)
}

/// The title of one occurrence: the answer number, and place and length of the title in the text.
pub fn title(text: &[u8], date: i64) -> (u32, u64, u64) {
    let (mut start, mut length) = (0, 0);
    // SAFETY: pointer and length come from one slice, which lives through the call; the two numbers are borrowed alone.
    let answer = unsafe { exported::smocurant_title(text.as_ptr(), text.len(), date, &mut start, &mut length) };
    (answer, start, length)
}

/// The description of one occurrence, as [`title`].
pub fn description(text: &[u8], date: i64) -> (u32, u64, u64) {
    let (mut start, mut length) = (0, 0);
    // SAFETY: as in `title`.
    let answer = unsafe { exported::smocurant_description(text.as_ptr(), text.len(), date, &mut start, &mut length) };
    (answer, start, length)
}

/// Which property was wrong: the answer number of the other calls on this text, and for 20 to 26 the byte place at which the first such value
/// begins. For every other number the place is 0.
pub fn locate(text: &[u8]) -> (u32, u64) {
    let mut place = 0;
    // SAFETY: pointer and length come from one slice, which lives through the call; the number is borrowed alone.
    let answer = unsafe { exported::smocurant_locate(text.as_ptr(), text.len(), &mut place) };
    (answer, place)
}

/// Writes each week's number of uploads, or -1 for shut, or -2 for missing, into its place: the answer number, and how many weeks were
/// reported, shut and missing.
pub fn weeks(log: &[i64], sheet: &[u8], range_start: i64, range_end: i64, places: &mut [i64]) -> (u32, [u64; 3]) {
    let [mut reported, mut shut, mut missing] = [0; 3];
    // SAFETY: each pointer and length come from one slice, which lives through the call. The places and the three numbers are borrowed alone,
    // so the function may write there. It keeps no pointer, and is proved to touch nothing outside of the slices.
    let answer = unsafe {
        exported::smocurant_weeks(
            log.as_ptr(),
            log.len(),
            sheet.as_ptr(),
            sheet.len(),
            range_start,
            range_end,
            places.as_mut_ptr(),
            places.len(),
            &mut reported,
            &mut shut,
            &mut missing,
        )
    };
    (answer, [reported, shut, missing])
}

/// Judges the bytes of a sheet: the answer number, the sheet's version, and the number of its records.
pub fn read(sheet: &[u8]) -> (u32, u32, u64) {
    let (mut version, mut count) = (0, 0);
    // SAFETY: as in `title`.
    let answer = unsafe { exported::smocurant_read(sheet.as_ptr(), sheet.len(), &mut version, &mut count) };
    (answer, version, count)
}

/// One record of a sheet by its number, which is counted from 0: the answer number, the id, the start, the end, and the marks. Each call judges
/// the whole sheet; [`records`] gives many records at once.
pub fn record(sheet: &[u8], number: u64) -> (u32, i64, i64, i64, u32) {
    let ([mut id, mut start, mut end], mut marks) = ([0; 3], 0);
    // SAFETY: pointer and length come from one slice, which lives through the call; the four numbers are borrowed alone.
    let answer = unsafe { exported::smocurant_record(sheet.as_ptr(), sheet.len(), number, &mut id, &mut start, &mut end, &mut marks) };
    (answer, id, start, end, marks)
}

/// Writes the records of a sheet from a number on into the four slices, as many as the shortest of them takes: the answer number, and how many
/// they are. Elements after them keep their values.
pub fn records(sheet: &[u8], first: u64, ids: &mut [i64], starts: &mut [i64], ends: &mut [i64], marks: &mut [u32]) -> (u32, u64) {
    let mut count = 0;
    // SAFETY: each pointer and length come from one slice, which lives through the call. The four slices and the count are borrowed alone, so
    // the function may write there. It keeps no pointer, and is proved to touch nothing outside of the slices.
    let answer = unsafe {
        exported::smocurant_records(
            sheet.as_ptr(),
            sheet.len(),
            first,
            ids.as_mut_ptr(),
            ids.len(),
            starts.as_mut_ptr(),
            starts.len(),
            ends.as_mut_ptr(),
            ends.len(),
            marks.as_mut_ptr(),
            marks.len(),
            &mut count,
        )
    };
    (answer, count)
}
