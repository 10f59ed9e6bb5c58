//! Both programs on the same input, in buffers with guard bytes around them.
#![allow(dead_code)] // each test file uses some

use generator::{Case, Random};
use smocurant::Record;
use std::ops::Range;

/// Bytes before and after each lent buffer, which nobody may write.
pub const GUARD: usize = 64;

/// The longest table that is compared.
pub const LONGEST: usize = 1 << 22;

/// How long a case's table is, by the expander; 0 where it is refused. The buffer is lent again and again, since filling it takes time.
pub fn table_length(case: &Case, buffer: &mut [u8]) -> usize {
    let zone = &case.zone;
    let (start, end) = case.window;
    expander::expand(&case.text, &zone.name, zone.initial_offset, &zone.instants, &zone.offsets, start, end, buffer).1 as usize
}

/// What came of one call: the answer, the length, and all bytes of the buffer with its guards.
#[derive(PartialEq, Eq)]
pub struct Outcome {
    pub answer: u32,
    pub length: u64,
    pub bytes: Vec<u8>,
}

impl Outcome {
    /// The table that was written.
    pub fn table(&self) -> &[u8] {
        &self.bytes[GUARD..GUARD + self.length as usize]
    }
}

/// The parameters of both programs.
type Expand = fn(&[u8], &[u8], i64, &[i64], &[i64], i64, i64, &mut [u8]) -> (u32, u64);

/// A call with a buffer of some length, which holds the bytes of a seed.
pub fn call(expand: Expand, case: &Case, room: usize, seed: u64) -> Outcome {
    let mut bytes = filled(room + 2 * GUARD, seed);
    let zone = &case.zone;
    let buffer = &mut bytes[GUARD..GUARD + room];
    let (answer, length) =
        expand(&case.text, &zone.name, zone.initial_offset, &zone.instants, &zone.offsets, case.window.0, case.window.1, buffer);
    Outcome { answer, length, bytes }
}

/// Bytes that are not all the same.
pub fn filled(length: usize, seed: u64) -> Vec<u8> {
    let random = &mut Random::new(seed);
    let first = random.next() as u8;
    let step = random.next() as u8 | 1;
    (0..length).scan(first, |byte, _| Some(std::mem::replace(byte, byte.wrapping_add(step)))).collect()
}

/// The library.
pub fn library(case: &Case, room: usize, seed: u64) -> Outcome {
    call(smocurant::raw::expand, case, room, seed)
}

/// The independent expander.
pub fn expander(case: &Case, room: usize, seed: u64) -> Outcome {
    call(expander::expand, case, room, seed)
}

/// How many cases are compared: 20,000, or more if `SMOCURANT_CASES` says so.
pub fn cases() -> u64 {
    number("SMOCURANT_CASES").unwrap_or(0).max(20_000)
}

/// The seeds of the cases, from `SMOCURANT_SEED` on, or else from 0.
pub fn seeds() -> Range<u64> {
    let first = number("SMOCURANT_SEED").unwrap_or(0);
    first..first + cases()
}

/// Shares the seeds out among the processors.
pub fn in_parallel(compare: impl Fn(&mut dyn Iterator<Item = u64>) + Sync) {
    let workers = std::thread::available_parallelism().map_or(1, usize::from);
    std::thread::scope(|scope| {
        for worker in 0..workers {
            let compare = &compare;
            scope.spawn(move || compare(&mut seeds().skip(worker).step_by(workers)));
        }
    });
}

/// The numbers of records, with their marks as document 01 counts them.
pub fn rows(records: impl Iterator<Item = Record>) -> Vec<(i64, i64, i64, u8)> {
    let marks = |record: &Record| u8::from(record.busy) + 2 * u8::from(record.all_day) + 4 * u8::from(record.floating);
    records.map(|record| (record.id, record.start, record.end, marks(&record))).collect()
}

/// A number of the environment.
fn number(name: &str) -> Option<u64> {
    let value = std::env::var(name).ok()?;
    Some(value.parse().unwrap_or_else(|_| panic!("{name} is no number: {value}")))
}

/// A text for messages.
pub fn shown(text: &[u8]) -> String {
    let start: String = String::from_utf8_lossy(text).chars().take(2_000).collect();
    format!("{} bytes: {start}", text.len())
}
