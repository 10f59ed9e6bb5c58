//! The library against the independent expander, on seeded cases: the same answer, length, texts, place of what was wrong, and every byte of the
//! buffer. What was written is read back, too.
//!
//! There are 20,000 cases, or more if `SMOCURANT_CASES` says so, from the seed `SMOCURANT_SEED` on, or else from 0.

mod support;
use expander::Sheet;
use generator::{Case, Random};
use smocurant::{raw, Table, Transition};
use support::{expander, in_parallel, library, seeds, shown, table_length, Outcome, LONGEST};

fn check(seed: u64, what: &str, case: &Case, same: bool) {
    let (window, zone, offset) = (case.window, String::from_utf8_lossy(&case.zone.name), case.zone.initial_offset);
    assert!(same, "seed {seed}, {what}: window {window:?}, zone {zone:?} {offset}, {}", shown(&case.text));
}

#[test]
fn tables_and_texts() {
    in_parallel(|seeds| {
        let mut buffer = vec![0; LONGEST];
        for seed in seeds {
            let case = Case::new(seed);
            let length = table_length(&case, &mut buffer);
            let own = compare_tables(seed, &case, length);
            let rows = Sheet::read(&buffer[..length]).map_or(Vec::new(), |sheet| rows(&sheet));
            compare_texts(seed, &case, &rows);
            compare_places(seed, &case, own.answer);
            if own.answer == 0 {
                compare_reading(seed, &case, own.table(), &rows);
            }
        }
    });
}

/// What a record says: its id, start, end and marks.
type Row = (i64, i64, i64, u8);

fn rows(sheet: &Sheet) -> Vec<Row> {
    sheet.records().map(|record| (record.id, record.start, record.end, record.marks)).collect()
}

/// Buffers as long as the table, a byte shorter, a byte longer, much longer, around a bare trailer, and none at all. What the library wrote into
/// the first of these.
fn compare_tables(seed: u64, case: &Case, length: usize) -> Outcome {
    let rooms = [length.saturating_sub(1), length + 1, length + 29, 0, 11, 12, 13, 39, 40, length / 2];
    let [own, _] = [length, Random::new(seed).pick(&rooms)].map(|room| {
        let (own, expected) = (library(case, room, seed), expander(case, room, seed));
        let what = format!("{room} bytes: {} {} and not {} {}", own.answer, own.length, expected.answer, expected.length);
        check(seed, &what, case, own == expected);
        own
    });
    own
}

/// The library reads its own table back to the expander's records, all at once, one by one, and as the crate gives them.
fn compare_reading(seed: u64, case: &Case, own: &[u8], expected: &[Row]) {
    let count = expected.len();
    check(seed, "read back", case, raw::read(own) == (0, 1, count as u64));
    let table = Table::read(own).unwrap();
    check(seed, "the number of records", case, table.len() == count);
    check(seed, "the records", case, support::rows(table.records()) == expected);
    for number in [0, 1, count / 2, count.wrapping_sub(1), count, count + 1] {
        let answer = expected.get(number).map_or((41, 0, 0, 0, 0), |row| (0, row.0, row.1, row.2, u32::from(row.3)));
        check(seed, &format!("record {number}"), case, raw::record(own, number as u64) == answer);
    }
}

/// Texts at the case's dates, and at the first and last occurrence of its table.
fn compare_texts(seed: u64, case: &Case, rows: &[Row]) {
    let ends = [rows.first(), rows.last()].into_iter().flatten().map(|row| row.0);
    for date in case.dates.iter().copied().chain(ends) {
        let title = smocurant::raw::title(&case.text, date) == expander::title(&case.text, date);
        check(seed, &format!("title at {date}"), case, title);
        let description = smocurant::raw::description(&case.text, date) == expander::description(&case.text, date);
        check(seed, &format!("description at {date}"), case, description);
    }
}

/// The number is also that of the sheet, where this looks at no more than the text.
fn compare_places(seed: u64, case: &Case, answer: u32) {
    let (own, expected) = (raw::locate(&case.text), expander::locate(&case.text));
    check(seed, &format!("located {own:?} and not {expected:?}"), case, own == expected);
    check(seed, &format!("located {own:?} beside {answer}"), case, own.0 == if matches!(answer, 10..=13) { 0 } else { answer });
}

/// The entry point over structs gives what the one over slices of numbers gives.
#[test]
fn entries_as_structs() {
    for seed in seeds().step_by(10) {
        let case = Case::new(seed);
        let zone = &case.zone;
        if zone.instants.len() != zone.offsets.len() {
            continue;
        }
        let entries: Vec<Transition> =
            zone.instants.iter().zip(&zone.offsets).map(|(&instant, &offset)| Transition { instant, offset }).collect();
        let room = 5_000;
        let mut bytes = support::filled(room, seed);
        let (start, end) = case.window;
        let answer = smocurant::raw::expand_entries(&case.text, &zone.name, zone.initial_offset, &entries, start, end, &mut bytes);
        let mut expected = support::filled(room, seed);
        let (instants, offsets) = (&zone.instants, &zone.offsets);
        let other = smocurant::raw::expand(&case.text, &zone.name, zone.initial_offset, instants, offsets, start, end, &mut expected);
        check(seed, "entries as structs", &case, answer == other && bytes == expected);
    }
}
