//! Replays of logs: the library beside the independent one.

use crate::measure::in_turns;
use generator::dates::DAY;
use generator::instants::{MONDAY, WEEK};
use generator::sheets::{self, Row};
use generator::Random;
use std::hint::black_box;

/// A log, a sheet of records with spans of one length, and a range of weeks. No uploads lie in every fourth week, and no starts of records in
/// every eighth, so that all kinds of weeks come up.
struct Workload {
    log: Vec<i64>,
    sheet: Vec<u8>,
    weeks: usize,
}

impl Workload {
    fn new(uploads: usize, records: usize, weeks: usize, span: i64) -> Workload {
        let random = &mut Random::new(1);
        let mut instant = |share: fn(i64) -> bool| loop {
            let second = random.within(0..=weeks as i64 * WEEK - 1);
            if share(second / WEEK) {
                return MONDAY + second;
            }
        };
        let mut log: Vec<i64> = (0..uploads).map(|_| instant(|week| week % 4 != 0)).collect();
        log.sort_unstable();
        let mut starts: Vec<i64> = (0..records).map(|_| instant(|week| week % 8 != 0)).collect();
        starts.sort_unstable();
        // The ids increase, also where starts are equal.
        let row = |(id, start): (i64, i64)| Row { id, start, end: start + span, marks: 1 };
        let rows: Vec<Row> = (0..).zip(starts).map(row).collect();
        Workload { log, sheet: sheets::written(&rows), weeks }
    }

    fn end(&self) -> i64 {
        MONDAY + self.weeks as i64 * WEEK
    }

    fn library(&self, places: &mut [i64]) -> (u32, [u64; 3]) {
        smocurant::raw::weeks(&self.log, &self.sheet, MONDAY, self.end(), places)
    }

    fn expander(&self, places: &mut [i64]) -> (u32, [u64; 3]) {
        expander::weeks(&self.log, &self.sheet, MONDAY, self.end(), places)
    }

    /// Nanoseconds of both, which must give the same.
    fn times(&self) -> [f64; 2] {
        let (mut places, mut other_places) = (vec![0; self.weeks], vec![0; self.weeks]);
        assert_eq!(self.library(&mut places), self.expander(&mut other_places));
        assert!(places == other_places, "the two replays differ");
        in_turns([
            &mut || {
                black_box(self.library(&mut places));
            },
            &mut || {
                black_box(self.expander(&mut other_places));
            },
        ])
    }
}

/// A long log, and how the time grows with the log, the records, their spans and the weeks.
pub fn print() {
    println!("\n## Weeks\n");
    print_table(&[(1_000_000, 100_000, 10_000, DAY)]);
    println!("\n### Uploads, ten times as many in each line\n");
    print_table(&[1_000, 10_000, 100_000, 1_000_000].map(|uploads| (uploads, 1_000, 1_000, DAY)));
    println!("\n### Records, ten times as many in each line\n");
    print_table(&[100, 1_000, 10_000, 100_000].map(|records| (1_000, records, 1_000, DAY)));
    println!("\n### Weeks, ten times as many in each line\n");
    print_table(&[100, 1_000, 10_000, 100_000, 1_000_000].map(|weeks| (1_000, 1_000, weeks, DAY)));
    println!("\n### Spans, ten times as long in each line\n");
    print_table(&[1, 10, 100, 1_000].map(|weeks| (1_000, 10_000, 1_000, weeks * WEEK)));
}

/// Workloads by their uploads, records, weeks, and the seconds of a record's span.
fn print_table(sizes: &[(usize, usize, usize, i64)]) {
    println!("| Uploads | Records | of days | Weeks | Library, ms | calls/s | Expander, ms | Expander / library | To the line before |");
    println!("|---|---|---|---|---|---|---|---|---|");
    let mut before = None;
    for (uploads, records, weeks, span) in sizes {
        let [library, expander] = Workload::new(*uploads, *records, *weeks, *span).times();
        let ratio = before.map_or(String::new(), |before: f64| format!("{:.2}", library / before));
        println!(
            "| {uploads} | {records} | {} | {weeks} | {:.3} | {:.0} | {:.3} | {:.2} | {ratio} |",
            span / DAY,
            library / 1e6,
            1e9 / library,
            expander / 1e6,
            expander / library,
        );
        before = Some(library);
    }
}
