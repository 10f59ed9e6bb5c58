//! The closures: their tables over all the time from which an occurrence can reach into the range.

use super::dates::DAY;
use crate::complaint::ShowLine;
use crate::events::Events;
use crate::failure::Failure;
use crate::options::Common;
use crate::progress::Progress;
use smocurant::{Table, WeekRange, Window};

/// The longest length. The end in UTC lies at most this and the furthest offset after the local start, whatever the clock does in between.
const LONGEST: i64 = 366 * DAY;

/// A local time is not further from UTC.
const FURTHEST_OFFSET: i64 = DAY;

/// So far an override may move an occurrence, and it is still seen: ten years.
const FURTHEST_MOVE: i64 = 3_653 * DAY;

/// The closures that could be read.
pub struct Closures {
    /// A table for each.
    pub tables: Vec<Table<'static>>,
    /// The number of those that were refused or could not be read.
    pub refused: usize,
}

impl Closures {
    /// Reads and expands all closures, and says which of them are refused.
    pub fn read(common: &Common, range: WeekRange) -> Result<Closures, Failure> {
        let events = Events::find(common, window(range), common.show_line(ShowLine::Never))?;
        let mut closures = Closures { tables: Vec::new(), refused: events.unreadable };
        let mut progress = Progress::new(events.sources.len(), common.quiet);
        for source in &events.sources {
            match events.occurrences(source) {
                Ok((_, table)) => closures.tables.push(table),
                Err(complaint) => {
                    closures.refused += 1;
                    progress.clear();
                    source.complain(&complaint);
                }
            }
            progress.file();
        }
        progress.clear();
        Ok(closures)
    }

    /// Has some closure no time zone?
    pub fn floating(&self) -> bool {
        self.tables.iter().any(|table| table.records().any(|record| record.floating))
    }
}

/// The window of local time, by the ids of occurrences, that has all those that can touch the range.
fn window(range: WeekRange) -> Window {
    let start = range.start().saturating_sub(LONGEST + FURTHEST_OFFSET + FURTHEST_MOVE);
    let end = range.end().saturating_add(FURTHEST_OFFSET + FURTHEST_MOVE);
    let within = |seconds: i64| seconds.clamp(Window::WIDEST.start(), Window::WIDEST.end());
    Window::new(within(start), within(end)).expect("the ends are in order, and within the widest window")
}

#[cfg(test)]
mod tests {
    use super::*;
    use smocurant::time;

    #[test]
    fn windows() {
        let range = |from: &str, to: &str| WeekRange::new(time::read(from).unwrap(), time::read(to).unwrap()).unwrap();
        let ends = |window: Window| (time::written(window.start()), time::written(window.end()));
        let expected = ("2014-12-27T00:00:00".to_string(), "2036-12-29T00:00:00".to_string());
        assert_eq!(ends(window(range("2025-12-29", "2026-12-28"))), expected);
        assert_eq!(window(range("0000-01-03", "9999-12-27")), Window::WIDEST);
        let before = window(range("1500-01-01", "1500-01-08"));
        assert_eq!((before.start(), before.end()), (Window::WIDEST.start(), Window::WIDEST.start()));
    }
}
