//! What holds of every event, asked of generated ones.

use expander::{Duration, Event, Sheet, Window};
use generator::dates::{DAY, END};
use generator::{pairs, Case, Model, Random};
use std::collections::BTreeMap;

const CASES: u64 = 2_000;

/// A buffer that is long enough for the case, and the answer.
fn expand(case: &Case, text: &[u8], buffer: &mut [u8]) -> (u32, u64) {
    let zone = &case.zone;
    expander::expand(text, &zone.name, zone.initial_offset, &zone.instants, &zone.offsets, case.window.0, case.window.1, buffer)
}

#[test]
fn models_are_accepted() {
    for seed in 0..CASES {
        let random = &mut Random::new(seed);
        let text = Model::random(random).text(random);
        assert_eq!(Event::read(&text).err(), None, "seed {seed}: {}", String::from_utf8_lossy(&text));
    }
}

/// Both parts of each length are read as they were meant, however they are spelled.
#[test]
fn lengths_keep_their_parts() {
    for seed in 0..CASES {
        let random = &mut Random::new(seed);
        let model = Model::random(random);
        let text = model.text(random);
        let own = Event::read(&text).unwrap().occurrence(i64::MIN).details.duration;
        assert_eq!(
            (own.days, own.seconds),
            (model.duration.days, model.duration.seconds),
            "seed {seed}: {}",
            String::from_utf8_lossy(&text)
        );
    }
}

/// The UTC start and the UTC end of each record of a case's table.
fn times(case: &Case, buffer: &mut [u8]) -> Vec<(i64, i64)> {
    let (_, length) = expand(case, &case.text, buffer);
    Sheet::read(&buffer[..length as usize]).map_or(Vec::new(), |sheet| sheet.records().map(|record| (record.start, record.end)).collect())
}

/// Ends that days of 86,400 seconds would not give, ends before and at their starts, and ends after 9999 all come up, each in many cases.
#[test]
fn ends_of_every_kind_come_up() {
    let mut seen = [0u64; 4];
    let mut buffer = vec![0; 1 << 16];
    for case in (0..10 * CASES).map(Case::new) {
        let Ok(event) = Event::read(&case.text) else { continue };
        let Duration { days, seconds } = event.occurrence(i64::MIN).details.duration;
        let fixed = days * DAY + seconds;
        let kinds: [&dyn Fn(i64, i64) -> bool; 4] = [
            &|start, end| days > 0 && seconds > 0 && end - start != fixed,
            &|start, end| end < start,
            &|start, end| end == start && fixed > 0,
            &|_, end| end >= END + 365 * DAY,
        ];
        let times = times(&case, &mut buffer);
        for (count, is_of_kind) in seen.iter_mut().zip(kinds) {
            *count += u64::from(times.iter().any(|(start, end)| is_of_kind(*start, *end)));
        }
    }
    assert!(seen.iter().all(|cases| *cases > CASES / 100), "{seen:?}");
}

/// The numbers that sheets and words can be answered with.
const ANSWERS: [std::ops::RangeInclusive<u32>; 3] = [0..=5, 7..=14, 20..=26];

#[test]
fn every_answer_comes_up() {
    let mut seen: BTreeMap<u32, u64> = ANSWERS.into_iter().flatten().map(|number| (number, 0)).collect();
    let mut note = |answer: u32| *seen.get_mut(&answer).unwrap_or_else(|| panic!("{answer} is no answer")) += 1;
    let mut buffer = vec![0; 1 << 16];
    for seed in 0..CASES {
        let case = Case::new(seed);
        let room = if seed % 4 == 0 { 100 } else { buffer.len() };
        note(expand(&case, &case.text, &mut buffer[..room]).0);
        case.dates.iter().for_each(|date| note(expander::title(&case.text, *date).0));
    }
    assert!(seen.values().all(|times| *times > CASES / 200), "{seen:?}");
}

/// Sheet and words give the number that is located.
#[test]
fn the_number_is_that_of_the_other_calls() {
    for seed in 0..CASES {
        let case = Case::new(seed);
        let (number, place) = expander::locate(&case.text);
        let told = [expand(&case, &case.text, &mut []).0, expander::title(&case.text, 0).0, expander::description(&case.text, 0).0];
        assert!(
            number == 0 && told.iter().all(|told| matches!(told, 0 | 10..=14)) || told == [number; 3],
            "seed {seed}: {number} {told:?}"
        );
        assert!(place == 0 || (20..=26).contains(&number), "seed {seed}");
    }
}

#[test]
fn windows_join() {
    for seed in 0..CASES / 5 {
        let random = &mut Random::new(seed);
        let model = Model::random(random);
        let text = model.text(random);
        let event = Event::read(&text).unwrap();
        let span = Window::widest().span();
        let end = if model.is_short() { span.end } else { (event.start() + 30_000_000).min(span.end) };
        let middle = (event.start() + random.within(-1_000_000..=20_000_000)).clamp(span.start, end);
        let parts = [event.ids(span.start..middle), event.ids(middle..end)].concat();
        assert_eq!(event.ids(span.start..end), parts, "seed {seed}");
    }
}

#[test]
fn texts_are_of_occurrences() {
    for seed in 0..CASES {
        let case = Case::new(seed);
        let Ok(event) = Event::read(&case.text) else { continue };
        for date in &case.dates {
            let is_occurrence = *date < i64::MAX && !event.ids(*date..*date + 1).is_empty() && event.privacy() != expander::Privacy::Secret;
            assert_eq!(expander::title(&case.text, *date).0, if is_occurrence { 0 } else { 14 }, "seed {seed}");
        }
    }
}

#[test]
fn pairs_look_the_same() {
    for seed in 0..CASES {
        let random = &mut Random::new(seed);
        let (_, texts) = if seed % 4 == 0 { pairs::secret(random) } else { pairs::private(random) };
        let case = Case::new(seed);
        let [first, second] = texts.map(|text| {
            let mut buffer = vec![0xaa; 50_000];
            let answer = expand(&case, &text, &mut buffer);
            let titles: Vec<_> = case.dates.iter().map(|date| expander::title(&text, *date)).collect();
            (answer, buffer, titles)
        });
        assert!(first == second, "seed {seed}");
    }
}
