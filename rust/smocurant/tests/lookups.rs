//! Offsets out of zone tables of every length that is valid: the library beside the independent expander, and both beside a scan of the table.
//!
//! One seed in 19 has a table, so that 20,000 seeds have every length. `SMOCURANT_CASES` and `SMOCURANT_SEED` give more and others.

mod support;
use generator::dates::{written, DAY, END, FIRST};
use generator::examples::event;
use generator::{Case, Random, ZoneNumbers};
use smocurant::Table;
use std::collections::BTreeMap;
use support::{expander, in_parallel, library, seeds, shown};

const NAME: &str = "Some/Zone";
const MOST_ENTRIES: u64 = 1_024;
const LARGEST_OFFSET: i64 = 86_399;
const HALF_YEAR: i64 = 182 * DAY;

/// Odd, so that all processors get some.
const SEEDS_PER_TABLE: u64 = 19;

/// How many entries the table of a seed has, if it has one.
fn entries(seed: u64) -> Option<u64> {
    seed.is_multiple_of(SEEDS_PER_TABLE).then_some(seed / SEEDS_PER_TABLE % (MOST_ENTRIES + 1))
}

#[test]
fn every_length_comes_up() {
    let mut lengths: Vec<u64> = seeds().filter_map(entries).collect();
    lengths.sort_unstable();
    lengths.dedup();
    assert!(lengths.into_iter().eq(0..=MOST_ENTRIES));
}

/// A valid table. A mark is later than its instant plus the offset after it by as much as the offset falls. Since the next instant is later by
/// more than the fall, marks increase. Some are a second apart.
fn table(entries: u64, random: &mut Random) -> ZoneNumbers {
    let widest = random.pick(&[6 * 3_600, 10 * DAY, HALF_YEAR, HALF_YEAR]);
    let initial_offset = random.within(-LARGEST_OFFSET..=LARGEST_OFFSET);
    let (mut instants, mut offsets) = (Vec::new(), Vec::new());
    let mut instant = random.within(FIRST + 2 * DAY..=END - 1_030 * (HALF_YEAR + 2 * DAY));
    let mut before = initial_offset;
    for _ in 0..entries {
        let near = (before + random.pick(&[3_600, -3_600, 1_800, 7])).clamp(-LARGEST_OFFSET, LARGEST_OFFSET);
        let after = if random.once_in(4) { random.within(-LARGEST_OFFSET..=LARGEST_OFFSET) } else { near };
        instants.push(instant);
        offsets.push(after);
        let spacing = if random.once_in(8) { 1 } else { random.within(1..=widest) };
        instant += (before - after).max(0) + spacing;
        before = after;
    }
    ZoneNumbers { name: NAME.as_bytes().to_vec(), initial_offset, instants, offsets }
}

/// "A transition's mark is its instant plus the larger of the offsets before and after; marks strictly increase."
fn marks(zone: &ZoneNumbers) -> Vec<i64> {
    let mut before = zone.initial_offset;
    let mark = |(instant, after): (&i64, &i64)| instant + std::mem::replace(&mut before, *after).max(*after);
    zone.instants.iter().zip(&zone.offsets).map(mark).collect()
}

/// "The offset for a local time is that after the last transition whose mark is at or before it, else the initial one."
fn offset(zone: &ZoneNumbers, marks: &[i64], local: i64) -> i64 {
    let last = (0..marks.len()).rev().find(|place| marks[*place] <= local);
    last.map_or(zone.initial_offset, |place| zone.offsets[place])
}

/// Local times at marks, the first and the last among them, a second before and a second after, before all marks and after all, in no order.
fn times(marks: &[i64], random: &mut Random) -> Vec<i64> {
    let mut some = marks.to_vec();
    random.shuffle(&mut some);
    some.truncate(82);
    some.extend(marks.first().into_iter().chain(marks.last()));
    let first = marks.first().unwrap_or(&0) - random.within(2..=DAY);
    let last = marks.last().unwrap_or(&0) + random.within(2..=DAY);
    let mut times: Vec<i64> = some.into_iter().flat_map(|mark| [mark - 1, mark, mark + 1]).chain([first, last]).collect();
    random.shuffle(&mut times);
    times
}

/// Overrides by their ids, each with its start. Half of them are moved, some of these as far as dates go.
fn overrides(marks: &[i64], random: &mut Random) -> BTreeMap<i64, i64> {
    let (ids, starts) = (times(marks, random), times(marks, random));
    let moved = |start: i64, random: &mut Random| if random.once_in(64) { random.pick(&[FIRST, END - 1]) } else { start };
    ids.into_iter().zip(starts).map(|(id, start)| (id, if random.once_in(2) { moved(start, random) } else { id })).collect()
}

/// The event of some overrides, which stand in the text in no order, from one of them on. One event in eight has a rule.
fn text(length: &str, starts: &BTreeMap<i64, i64>, random: &mut Random) -> String {
    let patch = |(id, start): (&i64, &i64)| {
        let moved = if id == start { String::new() } else { format!(r#""start":"{}""#, written(*start)) };
        format!(r#""{}":{{{moved}}}"#, written(*id))
    };
    let mut patches: Vec<String> = starts.iter().map(patch).collect();
    random.shuffle(&mut patches);
    let start = starts.keys().nth(random.index(starts.len())).expect("there are some");
    let rule = match random.below(16) {
        0 => r#""recurrenceRules": [{"@type": "RecurrenceRule", "frequency": "daily", "count": 2000}], "#,
        1 => r#""recurrenceRules": [{"@type": "RecurrenceRule", "frequency": "yearly", "count": 600}], "#,
        _ => "",
    };
    let members = format!(r#"{rule}"recurrenceOverrides": {{{}}}"#, patches.join(","));
    event(&written(*start), &format!(r#", "timeZone": "{NAME}", "duration": "{length}", {members}"#))
}

/// The same answer, length and bytes; and each record's times are its local times less the offsets that the scan finds.
fn compare(seed: u64, entries: u64) {
    let random = &mut Random::new(seed);
    let zone = table(entries, random);
    let marks = marks(&zone);
    let starts = overrides(&marks, random);
    let (length, days, seconds) = random.pick(&[("PT1H", 0, 3_600), ("P1D", 1, 0), ("P20WT1S", 140, 1)]);
    let text = text(length, &starts, random).into_bytes();
    let window = (*starts.keys().next().unwrap(), starts.keys().next_back().unwrap() + 1);
    let case = Case { text, zone, window, dates: Vec::new() };
    let room = (starts.len() + 2_000) * 28 + 12;
    let (own, expected) = (library(&case, room, seed), expander(&case, room, seed));
    let what = || format!("seed {seed}, {entries} entries, {}", shown(&case.text));
    assert!(own == expected, "answers {} and {}: {}", own.answer, expected.answer, what());
    assert_eq!(own.answer, 0, "{}", what());
    let utc = |local: i64| local - offset(&case.zone, &marks, local);
    let mut asked = 0;
    for record in Table::read(own.table()).unwrap().records() {
        let start = starts.get(&record.id).inspect(|_| asked += 1).copied().unwrap_or(record.id);
        assert_eq!(record.start, utc(start), "{}: {}", written(record.id), what());
        assert_eq!(record.end, utc(start + days * DAY) + seconds, "{}: {}", written(record.id), what());
    }
    assert_eq!(asked, starts.len(), "{}", what());
}

#[test]
fn tables_of_every_length() {
    in_parallel(|seeds| {
        for (seed, entries) in seeds.filter_map(|seed| Some((seed, entries(seed)?))) {
            compare(seed, entries);
        }
    });
}
