//! What looking up an offset costs, by the length of the zone table and by the order in which local times are asked for: three models, and the
//! library in whole calls.

use crate::measure::in_short_turns;
use crate::searches::{self, Numbers, Search};
use crate::workloads::Workload;
use generator::dates::{self, DAY};
use generator::examples::event;
use generator::Random;
use smocurant::{Table, Transition, ZoneTable};
use std::cell::RefCell;
use std::hint::black_box;
use std::rc::Rc;

const NAME: &str = "Some/Zone";

/// The first local time that a rule asks for, and the first change of the clocks.
const START: &str = "1900-01-01T09:00:00";
const FIRST_CHANGE: &str = "1900-03-25T01:00:00";

/// Half of 365.25 days.
const HALF_YEAR: i64 = 15_778_800;

/// Rules go over the years of the table, but over so many at least: fewer records could not be told from the noise.
const FEWEST_YEARS: i64 = 120;

const OVERRIDES: &str = "overrides, far apart";
const ORDERS: [&str; 5] = ["daily", "weekly", "monthly", "yearly", OVERRIDES];

/// So many events with overrides are taken one after the other. A processor learns by heart how a search branches for some thousand local times
/// that come again and again, and is some four times as fast then.
const EVENTS: u64 = 256;

/// Tables of three lengths, each with all orders.
pub fn print() {
    println!("\n## Looking up offsets\n");
    println!("| Entries | Local times | how many | Scan, ns | Halving, ns | Hint, then halving, ns | Marks that it reads | Library, ns |");
    println!("|---|---|---|---|---|---|---|---|");
    for entries in [2, 240, 1_024] {
        ORDERS.iter().for_each(|order| print_line(entries, order));
    }
}

fn print_line(entries: i64, order: &str) {
    let line = Line::new(entries, order);
    let [scan, halving, hinted, library] = line.times();
    let marks = searches::marks_read(&Numbers::of(&line.zone), &line.locals);
    let count = line.locals.len();
    println!("| {entries} | {order} | {count} | {scan:.1} | {halving:.1} | {hinted:.1} | {marks:.2} | {library:.1} |");
}

/// A table, and events that ask for local times.
struct Line {
    zone: Rc<ZoneTable>,
    /// Of each event: the call with the table, that with a table of no entries, and both with a window that ends where it begins.
    calls: Vec<[Workload; 4]>,
    locals: Vec<i64>,
}

impl Line {
    fn new(entries: i64, order: &str) -> Line {
        let zone = Rc::new(zone(entries));
        let none = Rc::new(ZoneTable::fixed(NAME, 0));
        let calls_of = |text: String| {
            let whole = Workload::new(order, text, "1900-01-01", &end(entries, order)).with_zone(&zone);
            let bare = whole.clone().with_zone(&none);
            let (whole_empty, bare_empty) = (whole.without_window(), bare.without_window());
            [whole, bare, whole_empty, bare_empty]
        };
        let calls: Vec<[Workload; 4]> = texts(entries, order).into_iter().map(calls_of).collect();
        let starts_of = |which: usize| calls.iter().flat_map(move |calls| starts(&calls[which]));
        // Without entries the offset is 0, so that starts in UTC are the local times.
        let locals: Vec<i64> = starts_of(1).collect();
        check(&Numbers::of(&zone), &locals, &starts_of(0).collect::<Vec<_>>());
        Line { zone, calls, locals }
    }

    /// Nanoseconds of one look-up by a scan, by halving, by halving after a look at the hint, and by the library. Those of the models include the
    /// call of a function.
    ///
    /// The library's is found from whole calls. With `PT1H` a record asks for one offset: the end takes that of the start. The call with a table
    /// of no entries does all the rest of the work, and asks for as many offsets, but reads no mark; it is subtracted. A call also judges the
    /// table, once, which takes the longer the more entries there are: that is the difference of the two calls with a window that ends where it
    /// begins, where no offset is asked for, and it is subtracted too.
    fn times(&self) -> [f64; 4] {
        let numbers = &Numbers::of(&self.zone);
        let model = |search: Search| {
            black_box(searches::offsets(search, black_box(numbers), &self.locals).fold(0, i64::wrapping_add));
        };
        // All calls write into one buffer and read one text: other places in memory would make a difference of their own.
        let buffer = RefCell::new(vec![0; self.calls[0][0].room()]);
        let call = |which: usize| {
            for calls in &self.calls {
                black_box(calls[which].library(&mut buffer.borrow_mut()));
            }
        };
        let [scan, halving, hinted, whole, bare, whole_empty, bare_empty] = in_short_turns([
            &mut || model(searches::scan),
            &mut || model(searches::halving),
            &mut || model(searches::hint_then_halving),
            &mut || call(0),
            &mut || call(1),
            &mut || call(2),
            &mut || call(3),
        ]);
        let library = (whole - bare) - (whole_empty - bare_empty);
        [scan, halving, hinted, library].map(|time| time / self.locals.len() as f64)
    }
}

/// Two changes a year, an hour apart.
fn zone(entries: i64) -> ZoneTable {
    let first = dates::read(FIRST_CHANGE);
    let entry = |place| Transition { instant: first + place * HALF_YEAR, offset: if place % 2 == 0 { 3_600 } else { 0 } };
    ZoneTable::new(NAME, 0, (0..entries).map(entry))
}

/// Where the window ends. The dates of overrides lie in its first year, wherever they are moved to.
fn end(entries: i64, order: &str) -> String {
    let years = if order == OVERRIDES { 1 } else { FEWEST_YEARS.max(entries / 2) };
    format!("{}-01-01", 1900 + years)
}

/// Events of one hour that ask for local times in an order.
fn texts(entries: i64, order: &str) -> Vec<String> {
    let text = |members: String| event(START, &format!(r#", "timeZone": "{NAME}", "duration": "PT1H", {members}"#));
    match order {
        OVERRIDES => (0..EVENTS).map(|seed| text(overrides(entries, seed))).collect(),
        frequency => vec![text(format!(r#""recurrenceRules": [{{"@type": "RecurrenceRule", "frequency": "{frequency}"}}]"#))],
    }
}

/// As many overrides as are allowed, of the days from the start on. Each is moved to any time from half a year before the first change to half a
/// year after the last.
fn overrides(entries: i64, seed: u64) -> String {
    let random = &mut Random::new(seed);
    let (start, first) = (dates::read(START), dates::read(FIRST_CHANGE));
    let moved = |day: i64| {
        let local = first + random.within(-HALF_YEAR..=entries * HALF_YEAR);
        format!(r#""{}": {{"start": "{}"}}"#, dates::written(start + day * DAY), dates::written(local))
    };
    format!(r#""recurrenceOverrides": {{{}}}"#, (0..256).map(moved).collect::<Vec<_>>().join(", "))
}

/// The starts in UTC of a call's records. The library's sheet must be the expander's.
fn starts(workload: &Workload) -> Vec<i64> {
    let (mut sheet, mut other) = (vec![0; workload.room()], vec![0; workload.room()]);
    let (answer, length) = workload.library(&mut sheet);
    assert_eq!((answer, length), workload.expander(&mut other), "{}", workload.name);
    assert!(answer == 0 && sheet == other, "{}", workload.name);
    let table = Table::read(&sheet[..length as usize]).expect("the library reads what it has written");
    table.records().map(|record| record.start).collect()
}

/// All three models must find the library's offsets.
fn check(numbers: &Numbers, locals: &[i64], starts: &[i64]) {
    for search in [searches::scan, searches::halving, searches::hint_then_halving] {
        let utc = searches::offsets(search, numbers, locals).zip(locals).map(|(offset, local)| local - offset);
        assert!(utc.eq(starts.iter().copied()), "the look-ups differ");
    }
}
