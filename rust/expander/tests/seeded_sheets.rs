//! Seeded sheets: each fault alone and beside each other one, whole sheets, and how often each answer comes up.

use generator::sheet_faults::{with_faults, Fault};
use generator::sheets::{self, Row};
use generator::{Random, SheetCase};
use std::collections::BTreeMap;

const CASES: u64 = 4_000;

/// "It refuses with 34 to 40, in this order": of two faults the first in this order is given.
#[test]
fn faults_alone_and_in_pairs() {
    for (one, other) in Fault::ALL.iter().flat_map(|one| Fault::ALL.iter().map(move |other| (*one, *other))) {
        for seed in 0..200 {
            let random = &mut Random::new(seed);
            let fewest = one.fewest_records().max(other.fewest_records());
            let rows = sheets::any_rows(fewest + random.index(4), random);
            let sheet = with_faults(&rows, &[one, other], random);
            assert_eq!(expander::read(&sheet), (one.min(other).number(), 0, 0), "seed {seed}, {one:?} and {other:?}: {sheet:?}");
        }
    }
}

/// A whole sheet gives back the rows that made it, all at once and one by one.
#[test]
fn whole_sheets() {
    for seed in 0..CASES {
        let random = &mut Random::new(seed);
        let rows = sheets::any_rows(random.pick(&[0, 1, 2, 3, 40]), random);
        let sheet = sheets::written(&rows);
        assert_eq!(expander::read(&sheet), (0, 1, rows.len() as u64));
        let (mut ids, mut starts, mut ends, mut marks) = (vec![0; 40], vec![0; 40], vec![0; 40], vec![0; 40]);
        let answer = expander::records(&sheet, 0, &mut ids, &mut starts, &mut ends, &mut marks);
        assert_eq!(answer, if rows.is_empty() { (41, 0) } else { (0, rows.len() as u64) });
        for (number, Row { id, start, end, marks: bits }) in rows.into_iter().enumerate() {
            assert_eq!((ids[number], starts[number], ends[number], marks[number]), (id, start, end, u32::from(bits)));
            assert_eq!(expander::record(&sheet, number as u64), (0, id, start, end, u32::from(bits)));
        }
    }
}

#[test]
fn every_answer_comes_up() {
    let mut counts = [BTreeMap::new(), BTreeMap::new()];
    for case in (0..CASES).map(SheetCase::new) {
        *counts[0].entry(expander::read(&case.sheet).0).or_insert(0) += 1;
        for question in &case.questions {
            *counts[1].entry(expander::record(&case.sheet, question.number).0).or_insert(0) += 1;
        }
    }
    let [of_sheets, of_records] = counts;
    assert_eq!(of_sheets.keys().copied().collect::<Vec<u32>>(), [0, 34, 35, 36, 37, 38, 39, 40]);
    assert_eq!(of_records.keys().copied().collect::<Vec<u32>>(), [0, 34, 35, 36, 37, 38, 39, 40, 41]);
    assert!(of_sheets.values().chain(of_records.values()).all(|count| *count > CASES / 50), "{of_sheets:?} {of_records:?}");
}
