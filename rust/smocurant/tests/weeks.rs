//! The replay of logs against the independent one, on seeded replays: the same answer, the same tallies, and every element of the lent places.
//!
//! There are as many cases as in the comparison of tables, from the same seed on.

mod support;
use expander::Sheet;
use generator::sheets::{self, Row};
use generator::{instants, Case, Random, Replay};
use smocurant::{raw, weeks, Status, Tallies, Week, WeekRange, Weeks, WeeksError};
use support::{in_parallel, seeds};

/// Elements before and after the lent places, which nobody may write.
const GUARD: usize = 4;

/// The longest range whose places are lent in full.
const MOST_WEEKS: u64 = 500;

type Replayed = fn(&[i64], &[u8], i64, i64, &mut [i64]) -> (u32, [u64; 3]);

/// What came of one call: the answer, the tallies, and all elements of the lent places with their guards.
#[derive(Debug, PartialEq, Eq)]
struct Outcome {
    answer: u32,
    tallies: [u64; 3],
    elements: Vec<i64>,
}

/// A call with some room, which holds the numbers of a seed.
fn call(weeks: Replayed, replay: &Replay, room: usize, seed: u64) -> Outcome {
    let mut elements = filled(room, seed);
    let (start, end) = replay.range;
    let (answer, tallies) = weeks(&replay.log, &replay.sheet, start, end, &mut elements[GUARD..GUARD + room]);
    Outcome { answer, tallies, elements }
}

fn filled(room: usize, seed: u64) -> Vec<i64> {
    let random = &mut Random::new(seed);
    (0..room + 2 * GUARD).map(|_| random.pick(&[0, -1, -2, 1, 7, i64::MIN])).collect()
}

/// Both programs with a place for each week, one less, one more, and none.
fn compare(seed: u64, replay: &Replay) {
    let weeks = replay.weeks().min(MOST_WEEKS) as usize;
    for room in [weeks, weeks.saturating_sub(1), weeks + 1, 0] {
        let (own, expected) = (call(raw::weeks, replay, room, seed), call(expander::weeks, replay, room, seed));
        assert_eq!(own, expected, "seed {seed}, {room} places: {replay:?}");
    }
}

/// The replays that are worked by hand, in their own room and in the others.
#[test]
fn worked_by_hand() {
    for worked in generator::examples::replays::all() {
        let replay = Replay { log: worked.log, rows: Vec::new(), sheet: worked.sheet, range: worked.range };
        let outcome = call(raw::weeks, &replay, worked.room, 0);
        let places = worked.expected.clone().unwrap_or_default();
        assert_eq!(outcome.answer, worked.expected.err().unwrap_or(0), "{replay:?}");
        let kept = filled(worked.room, 0).split_off(GUARD + places.len());
        let expected = [&filled(worked.room, 0)[..GUARD], &places, &kept].concat();
        assert_eq!(outcome.elements, expected, "{replay:?}");
        compare(0, &replay);
    }
}

/// A long replay in a small stack: nothing of it may be held there.
#[test]
fn a_long_replay() {
    let random = &mut Random::new(1);
    let range = (instants::MONDAY, instants::MONDAY + 5_000 * instants::WEEK);
    let mut starts: Vec<i64> = (0..300_000).map(|_| random.within(range.0 - instants::WEEK..=range.1)).collect();
    starts.sort_unstable();
    let rows: Vec<Row> =
        (0..).zip(starts.iter().step_by(100)).map(|(id, start)| Row { id, start: *start, end: start + 86_400, marks: 1 }).collect();
    let log = starts.into_iter().filter(|upload| upload / instants::WEEK % 3 == 0).collect();
    let replay = Replay { log, sheet: sheets::written(&rows), rows, range };
    let expected = call(expander::weeks, &replay, 5_001, 1);
    assert!(expected.answer == 0 && expected.tallies.iter().all(|tally| *tally > 100), "{:?}", expected.tallies);
    let small = std::thread::Builder::new().stack_size(1 << 20);
    let own = small.spawn(move || call(raw::weeks, &replay, 5_001, 1)).unwrap().join().unwrap();
    assert!(own == expected);
}

#[test]
fn seeded_replays() {
    in_parallel(|seeds| seeds.for_each(|seed| compare(seed, &Replay::new(seed))));
}

/// Sheets that events give, with their closures in the range. None of them is refused.
#[test]
fn sheets_of_events() {
    let mut buffer = vec![0; 1 << 16];
    for seed in seeds().step_by(5) {
        let (case, random) = (Case::new(seed), &mut Random::new(seed));
        let (zone, window) = (&case.zone, case.window);
        let (answer, length) =
            raw::expand(&case.text, &zone.name, zone.initial_offset, &zone.instants, &zone.offsets, window.0, window.1, &mut buffer);
        if answer != 0 {
            continue;
        }
        let sheet = buffer[..length as usize].to_vec();
        let first = Sheet::read(&sheet).unwrap().records().next().map_or(0, |record| record.start);
        let start = instants::monday(first) - random.within(0..=3) * instants::WEEK;
        let range = (start, start + random.within(1..=30) * instants::WEEK);
        let mut log: Vec<i64> = (0..random.below(20)).map(|_| instants::near(range, random)).collect();
        log.sort_unstable();
        let replay = Replay { log, rows: Vec::new(), sheet, range };
        assert_eq!(call(raw::weeks, &replay, 30, seed).answer, 0, "seed {seed}");
        compare(seed, &replay);
    }
}

/// What the request says of every replay that is done: "the three sum to the range's seconds divided by 604,800; uploads per week sum to the
/// uploads of the log inside the range."
#[test]
fn sums() {
    for seed in seeds().step_by(2) {
        let replay = Replay::new(seed);
        let weeks = replay.weeks().min(MOST_WEEKS) as usize;
        let outcome = call(raw::weeks, &replay, weeks, seed);
        if outcome.answer != 0 {
            continue;
        }
        let (start, end) = replay.range;
        let (places, tallies) = (&outcome.elements[GUARD..GUARD + weeks], outcome.tallies);
        let seconds = i128::from(end) - i128::from(start);
        assert_eq!(i128::from(tallies.iter().sum::<u64>()) * 604_800, seconds, "seed {seed}");
        let inside = replay.log.iter().filter(|upload| (start..end).contains(upload)).count();
        assert_eq!(places.iter().filter(|place| **place > 0).sum::<i64>(), inside as i64, "seed {seed}");
        let tally = |of: fn(&i64) -> bool| places.iter().filter(|place| of(place)).count() as u64;
        assert_eq!(tallies, [tally(|place| *place > 0), tally(|place| *place == -1), tally(|place| *place == -2)], "seed {seed}");
    }
}

/// Several sheets shut what one sheet with the rows of all of them shuts.
fn joined(replay: &Replay, all: &[Vec<Row>]) -> Outcome {
    let rows: Vec<Row> = (0..).zip(all.concat()).map(|(id, row)| Row { id, ..row }).collect();
    let one = Replay { sheet: sheets::written(&rows), ..replay.clone() };
    call(expander::weeks, &one, replay.weeks() as usize, 0)
}

/// The crate's weeks are those of a call that is done.
fn check(seed: u64, found: &Weeks, outcome: &Outcome) {
    let places = &outcome.elements[GUARD..GUARD + found.len()];
    let [reported, shut, missing] = outcome.tallies;
    assert_eq!((outcome.answer, found.places(), found.tallies()), (0, places, Tallies { reported, shut, missing }), "seed {seed}");
    let mondays = (0..).map(|week| found.range().start() + week * instants::WEEK);
    let expected = mondays.zip(places.iter().map(|place| Week::of_place(*place).unwrap()));
    assert!(found.iter().eq(expected), "seed {seed}");
    assert_eq!(found.range().number_of_weeks(), found.len() as u64, "seed {seed}");
}

#[test]
fn several_sheets() {
    for seed in seeds().step_by(4) {
        let (replay, random) = (Replay::new(seed), &mut Random::new(seed));
        let all: Vec<Vec<Row>> = (0..random.below(5)).map(|_| sheets::rows(replay.range, random)).collect();
        let bytes: Vec<Vec<u8>> = all.iter().map(|rows| sheets::written(rows)).collect();
        let Ok(range) = WeekRange::new(replay.range.0, replay.range.1) else { continue };
        if replay.weeks() > MOST_WEEKS {
            continue;
        }
        match weeks(&replay.log, &bytes, range) {
            Ok(found) => check(seed, &found, &joined(&replay, &all)),
            Err(WeeksError::Log { place }) => {
                assert!(replay.log[place] < replay.log[place - 1] && replay.log[..place].is_sorted(), "seed {seed}");
            }
            Err(error) => panic!("seed {seed}: {error}"),
        }
    }
}

/// A damaged sheet is named by its place, also after good ones.
#[test]
fn damaged_sheets() {
    let range = WeekRange::new(instants::MONDAY, instants::MONDAY + 3 * instants::WEEK).unwrap();
    for seed in seeds().step_by(20) {
        let bytes: Vec<Vec<u8>> = (seed..seed + 4).map(|seed| Replay::new(seed).sheet).collect();
        let damaged = bytes.iter().position(|sheet| Sheet::read(sheet).is_err());
        let expected = damaged.map(|place| WeeksError::Sheet { place });
        assert_eq!(weeks(&[0], &bytes, range).err(), expected, "seed {seed}");
    }
}

/// The range is judged by the library, and as the papers say.
#[test]
fn ranges() {
    for seed in seeds().step_by(4) {
        let (start, end) = Replay::new(seed).range;
        let is_monday = |instant: i64| instant.rem_euclid(604_800) == 345_600;
        let is_right = is_monday(start) && is_monday(end) && start <= end;
        assert_eq!(WeekRange::new(start, end).err(), (!is_right).then_some(Status::WeekRange), "{start} to {end}");
    }
}
