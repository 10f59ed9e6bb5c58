//! Replays worked by hand, and seeded ones: of these each answer comes up often, and so does each of the reader's refusals.

use expander::{Refusal, Sheet};
use generator::examples::replays;
use generator::instants::{MONDAY, WEEK};
use generator::Replay;
use std::collections::BTreeMap;

const CASES: u64 = 4_000;

#[test]
fn worked_by_hand() {
    for worked in replays::all() {
        let mut places = vec![77; worked.room];
        let (answer, tallies) = expander::weeks(&worked.log, &worked.sheet, worked.range.0, worked.range.1, &mut places);
        let expected = worked.expected.clone().unwrap_or_default();
        let tally = |is: fn(i64) -> bool| expected.iter().filter(|place| is(**place)).count() as u64;
        assert_eq!(answer, worked.expected.clone().err().unwrap_or(0), "{worked:?}");
        assert_eq!(tallies, [tally(|place| place > 0), tally(|place| place == -1), tally(|place| place == -2)], "{worked:?}");
        let kept = vec![77; worked.room - expected.len()];
        assert_eq!(places, [expected, kept].concat(), "{worked:?}");
    }
}

/// The sentence about spans, said of one week and one span.
fn touches((start, end): (i64, i64), monday: i64) -> bool {
    let week = monday..monday + WEEK;
    if start < end {
        start < week.end && end > week.start
    } else {
        week.contains(&start)
    }
}

#[test]
fn spans_around_every_monday() {
    let instants: Vec<i64> = (-1..5).flat_map(|week| [-1, 0, 1, WEEK / 2].map(|second| MONDAY + week * WEEK + second)).collect();
    for span in instants.iter().flat_map(|start| instants.iter().map(|end| (*start, *end))) {
        let mut places = [0; 3];
        expander::weeks(&[], &replays::sheet(&[span]), MONDAY, MONDAY + 3 * WEEK, &mut places);
        let expected = [0, 1, 2].map(|week| if touches(span, MONDAY + week * WEEK) { -1 } else { -2 });
        assert_eq!(places, expected, "{span:?}");
    }
}

/// How often each number comes up.
fn counted(numbers: impl Iterator<Item = u32>) -> BTreeMap<u32, u64> {
    numbers.fold(BTreeMap::new(), |mut counts, number| {
        *counts.entry(number).or_default() += 1;
        counts
    })
}

#[test]
fn every_answer_comes_up() {
    let answer = |seed: u64| {
        let replay = Replay::new(seed);
        let room = replay.weeks().min(500) as usize;
        let lent = if seed.is_multiple_of(8) { room.saturating_sub(1) } else { room };
        expander::weeks(&replay.log, &replay.sheet, replay.range.0, replay.range.1, &mut vec![0; lent]).0
    };
    let counts = counted((0..CASES).map(answer));
    assert_eq!(counts.keys().copied().collect::<Vec<_>>(), [0, 30, 31, 32, 33]);
    assert!(counts[&0] > CASES / 3 && counts.values().all(|count| *count > CASES / 20), "{counts:?}");
}

#[test]
fn every_refusal_of_the_reader_comes_up() {
    let number = |seed: u64| Sheet::read(&Replay::new(seed).sheet).map_or_else(Refusal::number, |_| 0);
    let counts = counted((0..CASES).map(number));
    assert_eq!(counts.keys().copied().collect::<Vec<_>>(), [0, 34, 35, 36, 37, 38, 39, 40]);
    assert!(counts.values().all(|count| *count > CASES / 400), "{counts:?}");
}

/// Reported, shut and missing weeks all come up, each in many replays.
#[test]
fn every_kind_of_week_comes_up() {
    let mut replays = [0; 3];
    for replay in (0..CASES).map(Replay::new) {
        let mut places = vec![0; replay.weeks().min(500) as usize];
        let (_, tallies) = expander::weeks(&replay.log, &replay.sheet, replay.range.0, replay.range.1, &mut places);
        replays = [0, 1, 2].map(|kind| replays[kind] + u64::from(tallies[kind] > 0));
    }
    assert!(replays.iter().all(|count| *count > CASES / 8), "{replays:?}");
}
