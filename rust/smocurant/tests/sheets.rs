//! Sheets read back by the library and by the independent reader, on seeded sheets: the same answers, the same numbers, and every element of the
//! lent slices.
//!
//! There are as many cases as in the comparison of tables, from the same seed on.

mod support;
use expander::{Refusal, Sheet};
use generator::sheet_faults::{with_faults, Fault};
use generator::{sheets, Question, Random, SheetCase};
use smocurant::{raw, Status, Table};
use std::collections::BTreeMap;
use support::{in_parallel, seeds};

/// Elements before and after each lent slice, which nobody may write.
const GUARD: usize = 4;

type Records = fn(&[u8], u64, &mut [i64], &mut [i64], &mut [i64], &mut [u32]) -> (u32, u64);

/// What came of one call: the answer, the count, and all elements of the lent slices with their guards.
#[derive(Debug, PartialEq, Eq)]
struct Outcome {
    answer: u32,
    count: u64,
    times: [Vec<i64>; 3],
    marks: Vec<u32>,
}

/// A call with slices of some lengths, which hold the numbers of a seed.
fn call(records: Records, sheet: &[u8], question: &Question, seed: u64) -> Outcome {
    let random = &mut Random::new(seed);
    let [ids, starts, ends, marks] = question.rooms.map(|room| room + 2 * GUARD);
    let [mut ids, mut starts, mut ends] = [ids, starts, ends].map(|length| (0..length).map(|_| random.next() as i64).collect::<Vec<i64>>());
    let mut marks: Vec<u32> = (0..marks).map(|_| random.next() as u32).collect();
    let (answer, count) = records(sheet, question.number, lent(&mut ids), lent(&mut starts), lent(&mut ends), lent(&mut marks));
    Outcome { answer, count, times: [ids, starts, ends], marks }
}

/// The elements between the guards.
fn lent<T>(elements: &mut [T]) -> &mut [T] {
    let end = elements.len() - GUARD;
    &mut elements[GUARD..end]
}

/// All three calls of both programs.
fn compare(seed: u64, sheet: &[u8], questions: &[Question]) {
    assert_eq!(raw::read(sheet), expander::read(sheet), "seed {seed}: {sheet:?}");
    for question in questions {
        let number = question.number;
        assert_eq!(raw::record(sheet, number), expander::record(sheet, number), "seed {seed}, {question:?}: {sheet:?}");
        let (own, expected) = (call(raw::records, sheet, question, seed), call(expander::records, sheet, question, seed));
        assert_eq!(own, expected, "seed {seed}, {question:?}: {sheet:?}");
    }
}

#[test]
fn seeded_sheets() {
    in_parallel(|seeds| {
        for seed in seeds {
            let case = SheetCase::new(seed);
            compare(seed, &case.sheet, &case.questions);
        }
    });
}

/// How often each answer of the library comes up, for the sheet alone and for records.
#[test]
fn every_answer_comes_up() {
    let (mut of_sheets, mut of_records, mut of_runs) = (BTreeMap::new(), BTreeMap::new(), BTreeMap::new());
    for seed in seeds() {
        let case = SheetCase::new(seed);
        *of_sheets.entry(raw::read(&case.sheet).0).or_insert(0u64) += 1;
        for question in &case.questions {
            *of_records.entry(raw::record(&case.sheet, question.number).0).or_insert(0) += 1;
            *of_runs.entry(call(raw::records, &case.sheet, question, seed).answer).or_insert(0) += 1;
        }
    }
    let refusals = 34..=40;
    assert!(of_sheets.keys().copied().eq([0].into_iter().chain(refusals.clone())), "{of_sheets:?}");
    assert!(of_records.keys().copied().eq([0].into_iter().chain(refusals).chain([41])), "{of_records:?}");
    assert!(of_sheets.values().chain(of_records.values()).all(|count| *count > 200), "{of_sheets:?} {of_records:?}");
    assert_eq!(of_runs, of_records);
}

/// "It refuses with 34 to 40, in this order": of two faults the first in this order is given. The crate says it by its name.
#[test]
fn faults_alone_and_in_pairs() {
    for (one, other) in Fault::ALL.iter().flat_map(|one| Fault::ALL.iter().map(move |other| (*one, *other))) {
        for seed in 0..100 {
            let random = &mut Random::new(seed);
            let rows = sheets::any_rows(2 + random.index(3), random);
            let sheet = with_faults(&rows, &[one, other], random);
            let number = one.min(other).number();
            assert_eq!(raw::read(&sheet), (number, 0, 0), "seed {seed}, {one:?} and {other:?}: {sheet:?}");
            assert_eq!(Table::read(&sheet).err(), Status::of_number(number), "seed {seed}");
            let [all, beyond] = [0, 9].map(|number| Question { number, rooms: [5; 4] });
            compare(seed, &sheet, &[all, beyond]);
        }
    }
}

/// The crate gives the rows of whole sheets, and names what is wrong with the others.
#[test]
fn tables() {
    for seed in seeds().step_by(4) {
        let case = SheetCase::new(seed);
        match (Table::read(&case.sheet), Sheet::read(&case.sheet)) {
            (Ok(table), Ok(sheet)) => {
                let expected: Vec<_> = sheet.records().map(|record| (record.id, record.start, record.end, record.marks)).collect();
                assert_eq!((table.len(), support::rows(table.records())), (expected.len(), expected), "seed {seed}");
                let one_by_one = (0..table.len() + 2).map_while(|number| table.get(number));
                assert!(one_by_one.eq(&table), "seed {seed}");
            }
            (Err(status), Err(refusal)) => assert_eq!(status.number(), Refusal::number(refusal), "seed {seed}"),
            (own, expected) => panic!("seed {seed}: {own:?} and not {expected:?}"),
        }
    }
}

/// Each change of one bit of a sheet, and each length of it.
#[test]
fn one_bit_and_every_length() {
    for rows in [0, 1, 2, 5] {
        let sheet = sheets::written(&sheets::any_rows(rows, &mut Random::new(7)));
        let question = |number: u64| Question { number, rooms: [6; 4] };
        for bit in 0..8 * sheet.len() {
            let mut damaged = sheet.clone();
            damaged[bit / 8] ^= 1 << (bit % 8);
            compare(bit as u64, &damaged, &[question(0), question(4)]);
        }
        for length in 0..sheet.len() {
            compare(length as u64, &sheet[..length], &[question(0)]);
            compare(length as u64, &sheet[length..], &[question(0)]);
        }
    }
}

/// A long sheet in a small stack: nothing of it may be held there.
#[test]
fn a_long_sheet() {
    let rows = sheets::any_rows(50_000, &mut Random::new(1));
    let sheet = sheets::written(&rows);
    let question = Question { number: 3, rooms: [50_001, 50_000, 49_998, 49_997] };
    let expected = call(expander::records, &sheet, &question, 1);
    assert_eq!((expected.answer, expected.count), (0, 49_997));
    let small = std::thread::Builder::new().stack_size(1 << 20);
    let read = move || (raw::read(&sheet), raw::record(&sheet, 49_999), call(raw::records, &sheet, &question, 1));
    let (judged, last, own) = small.spawn(read).unwrap().join().unwrap();
    let row = rows[49_999];
    assert_eq!((judged, last), ((0, 1, 50_000), (0, row.id, row.start, row.end, u32::from(row.marks))));
    assert!(own == expected);
}
