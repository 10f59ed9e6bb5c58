//! Reading sheets back: the library beside the independent reader, and beside a plain copy of the sheet's bytes.

use crate::measure::in_turns;
use generator::{sheets, Random};
use std::hint::black_box;

/// Lent slices for all records of a sheet.
struct Lent {
    ids: Vec<i64>,
    starts: Vec<i64>,
    ends: Vec<i64>,
    marks: Vec<u32>,
}

type Records = fn(&[u8], u64, &mut [i64], &mut [i64], &mut [i64], &mut [u32]) -> (u32, u64);

impl Lent {
    fn new(records: usize) -> Lent {
        let numbers = || vec![0; records];
        Lent { ids: numbers(), starts: numbers(), ends: numbers(), marks: vec![0; records] }
    }

    /// All records by one call.
    fn read(&mut self, records: Records, sheet: &[u8]) -> (u32, u64) {
        records(sheet, 0, &mut self.ids, &mut self.starts, &mut self.ends, &mut self.marks)
    }

    /// The numbers of each record.
    fn rows(&self) -> impl Iterator<Item = (i64, i64, i64, u32)> + '_ {
        self.ids.iter().zip(&self.starts).zip(&self.ends).zip(&self.marks).map(|(((id, start), end), marks)| (*id, *start, *end, *marks))
    }
}

/// Nanoseconds of a copy of the sheet's bytes, of all records by the library, of its judgement alone, and of all records by the expander. What is
/// lent is there before.
fn times(records: usize) -> [f64; 4] {
    let sheet = sheets::written(&sheets::any_rows(records, &mut Random::new(1)));
    let mut copy = vec![0; sheet.len()];
    let (mut own, mut other) = (Lent::new(records), Lent::new(records));
    assert_eq!(own.read(smocurant::raw::records, &sheet), (0, records as u64));
    assert_eq!(other.read(expander::records, &sheet), (0, records as u64));
    assert!(own.rows().eq(other.rows()), "the two readers differ");
    in_turns([
        &mut || {
            copy.copy_from_slice(black_box(&sheet));
            black_box(&copy);
        },
        &mut || {
            black_box(own.read(smocurant::raw::records, black_box(&sheet)));
        },
        &mut || {
            black_box(smocurant::raw::read(black_box(&sheet)));
        },
        &mut || {
            black_box(other.read(expander::records, black_box(&sheet)));
        },
    ])
}

/// Ten times as many records in each line.
pub fn print() {
    println!("\n## Reading sheets\n");
    println!("| Records | Copy, us | All read, us | ns/record | To the copy | Judged, us | To the copy | Expander / library | To the line before |");
    println!("|---|---|---|---|---|---|---|---|---|");
    let mut before = None;
    for records in [100, 1_000, 10_000, 100_000] {
        let [copy, library, judged, expander] = times(records);
        let growth = before.map_or(String::new(), |before: f64| format!("{:.2}", library / before));
        println!(
            "| {records} | {:.3} | {:.3} | {:.2} | {:.2} | {:.3} | {:.2} | {:.2} | {growth} |",
            copy / 1e3,
            library / 1e3,
            library / records as f64,
            library / copy,
            judged / 1e3,
            judged / copy,
            expander / library,
        );
        before = Some(library);
    }
}
