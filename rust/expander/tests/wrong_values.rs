//! Events with wrong values that the generator has put in: their answers and places are known.

use generator::WrongText;
use std::collections::BTreeMap;

const CASES: u64 = 20_000;

#[test]
fn numbers_and_places() {
    for seed in 0..CASES {
        let wrong = WrongText::new(seed);
        let shown = String::from_utf8_lossy(&wrong.text);
        assert_eq!(expander::locate(&wrong.text), (wrong.answer, wrong.place), "seed {seed}: {shown}");
    }
}

/// Every number comes up often, alone and beside others, in narrow texts and in wide ones, and after letters of several bytes.
#[test]
fn every_kind_comes_up() {
    let mut alone: BTreeMap<u32, u64> = BTreeMap::new();
    let mut beside = alone.clone();
    let (mut after_space, mut after_letters) = (0, 0);
    for wrong in (0..CASES).map(WrongText::new) {
        let counts = if wrong.count == 1 { &mut alone } else { &mut beside };
        *counts.entry(wrong.answer).or_default() += 1;
        let before = &wrong.text[..wrong.place as usize];
        after_space += u64::from(before.contains(&b'\n'));
        after_letters += u64::from(!before.is_ascii());
    }
    for counts in [&alone, &beside] {
        assert!(counts.keys().copied().eq(20..=26) && counts.values().all(|count| *count > CASES / 200), "{alone:?} {beside:?}");
    }
    assert!(after_space > CASES / 4 && after_letters > CASES / 10, "{after_space} {after_letters}");
}
