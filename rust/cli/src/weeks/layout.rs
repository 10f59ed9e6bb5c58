//! How weeks are laid out for people: a row for each quarter of a year, so that a week is found by its number.

use super::dates;
use super::report::DatedWeek;

/// The weeks of a quarter; the last one has one more where the year has 53 weeks.
const QUARTER: usize = 13;

/// The cells of a row.
pub const COLUMNS: usize = QUARTER + 1;

/// A quarter of a year, with a cell for each of its weeks that is in the range.
pub struct Row<'r> {
    pub year: i64,
    /// Is it the first row of its year?
    pub starts_year: bool,
    pub cells: [Option<&'r DatedWeek>; COLUMNS],
}

impl Row<'_> {
    /// The month that begins at a cell. A week belongs to the month of its Thursday, as it belongs to that day's year.
    pub fn month(&self, column: usize) -> Option<&'static str> {
        let month = |cell: &DatedWeek| dates::month(cell.thursday());
        let before = column.checked_sub(1).and_then(|before| self.cells[before]).map(month);
        self.cells[column].map(month).filter(|month| before != Some(month))
    }
}

/// The rows of weeks that follow each other.
pub fn rows(weeks: &[DatedWeek]) -> Vec<Row<'_>> {
    let mut rows: Vec<Row> = Vec::new();
    for quarter in weeks.chunk_by(|one, next| place(one).0 == place(next).0) {
        let year = quarter[0].number.year;
        let starts_year = rows.last().is_none_or(|row| row.year != year);
        let mut cells = [None; COLUMNS];
        quarter.iter().for_each(|week| cells[place(week).1] = Some(week));
        rows.push(Row { year, starts_year, cells });
    }
    rows
}

/// The quarter of a week, counted from 0 in its year, and the place in it.
fn place(week: &DatedWeek) -> ((i64, usize), usize) {
    let place = usize::try_from(week.number.number - 1).expect("weeks are counted from 1");
    let quarter = (place / QUARTER).min(3);
    ((week.number.year, quarter), place - QUARTER * quarter)
}

#[cfg(test)]
mod tests {
    use super::super::iso_week::IsoWeek;
    use super::*;
    use smocurant::{time, Week};

    fn weeks(from: &str, number: i64) -> Vec<DatedWeek> {
        let first = time::read(from).unwrap();
        let mondays = (0..number).map(|place| first + place * dates::WEEK);
        mondays.map(|monday| DatedWeek { monday, number: IsoWeek::of_monday(monday), week: Week::Missing }).collect()
    }

    fn lengths(rows: &[Row]) -> Vec<usize> {
        rows.iter().map(|row| row.cells.iter().flatten().count()).collect()
    }

    #[test]
    fn a_year_has_four_rows() {
        let weeks = weeks("2025-12-29", 53);
        let rows = rows(&weeks);
        assert_eq!(lengths(&rows), [13, 13, 13, 14]);
        assert_eq!(rows.iter().map(|row| row.starts_year).collect::<Vec<_>>(), [true, false, false, false]);
        assert_eq!(rows[3].cells[13].unwrap().number.to_string(), "2026-W53");
        let months: Vec<&str> = (0..COLUMNS).flat_map(|column| rows[3].month(column)).collect();
        assert_eq!(months, ["Oct", "Nov", "Dec"]);
        assert_eq!((rows[0].month(0), rows[0].month(4), rows[0].month(5)), (Some("Jan"), None, Some("Feb")));
    }

    #[test]
    fn years_follow_each_other() {
        let weeks = weeks("2026-12-21", 3);
        let rows = rows(&weeks);
        assert_eq!(lengths(&rows), [2, 1]);
        assert_eq!((rows[0].year, rows[1].year, rows[1].starts_year), (2026, 2027, true));
        assert!(rows[0].cells[12].is_some() && rows[0].cells[13].is_some() && rows[1].cells[0].is_some());
        assert!(super::rows(&[]).is_empty());
    }
}
