//! A year at a glance in the terminal, within 80 columns and 24 lines.

use crate::weeks::dates;
use crate::weeks::layout::{self, Row};
use crate::weeks::report::{counted, short, DatedWeek, Report};
use smocurant::Week;
use std::io::{self, Write};

/// Columns of the terminal, of the year's label, of a cell, and of a mark with the space after it.
const WIDTH: usize = 79;
const LABEL: usize = 6;
const CELL: usize = 5;
const INDENT: usize = 5;

/// Marks of weeks without uploads; they are told apart without colours, too.
const SHUT: Mark = Mark { text: "███", colour: "35" };
const MISSING: Mark = Mark { text: "[?]", colour: "1;31" };

/// What stands under a week's number, and its colour on a terminal (SGR).
struct Mark {
    text: &'static str,
    colour: &'static str,
}

impl Mark {
    fn shown(&self, colours: bool) -> String {
        if colours {
            format!("\x1b[{}m{}\x1b[0m", self.colour, self.text)
        } else {
            self.text.to_string()
        }
    }
}

/// The range, its weeks by quarters, what the marks mean with the tallies and dates, and the notes.
pub fn write(report: &Report, colours: bool, out: &mut dyn Write) -> io::Result<()> {
    writeln!(out, "{}", report.span())?;
    for row in layout::rows(&report.weeks) {
        if row.starts_year {
            writeln!(out)?;
        }
        quarter(&row, colours, out)?;
    }
    writeln!(out)?;
    if !report.weeks.is_empty() {
        tallies(report, colours, out)?;
    }
    report.notes.iter().try_for_each(|note| writeln!(out, "{note}"))
}

/// Three lines: the months, the weeks' numbers, and the marks.
fn quarter(row: &Row, colours: bool, out: &mut dyn Write) -> io::Result<()> {
    let year = if row.starts_year { row.year.to_string() } else { String::new() };
    let (mut months, mut numbers, mut marks) = (format!("{year:LABEL$}"), " ".repeat(LABEL), " ".repeat(LABEL));
    for (column, cell) in row.cells.iter().enumerate() {
        months += &format!("{:CELL$}", row.month(column).unwrap_or(""));
        numbers += &format!("{:CELL$}", cell.map_or(String::new(), |week| format!("W{:02}", week.number.number)));
        marks += &cell.map_or(" ".repeat(CELL), |week| mark(week, colours));
    }
    [months, numbers, marks].iter().try_for_each(|line| writeln!(out, "{}", line.trim_end()))
}

/// The mark of a week, as wide as a cell.
fn mark(week: &DatedWeek, colours: bool) -> String {
    let after = " ".repeat(CELL - 3);
    match week.week {
        Week::Reported(uploads) if uploads.get() < 10 => format!("{:CELL$}", format!(" {uploads}")),
        Week::Reported(uploads) => format!("{:CELL$}", format!("{:>3}", short(uploads.get()))),
        Week::Shut => SHUT.shown(colours) + &after,
        Week::Missing => MISSING.shown(colours) + &after,
    }
}

/// What the marks mean, how many there are of each, and the Mondays of weeks without uploads.
fn tallies(report: &Report, colours: bool, out: &mut dyn Write) -> io::Result<()> {
    let tallies = report.tallies;
    writeln!(out, " n   {} reported, with n uploads; {} in all", counted(tallies.reported, "week"), counted(report.uploads, "upload"))?;
    for (mark, kind, number, class) in [(SHUT, Week::Shut, tallies.shut, "shut"), (MISSING, Week::Missing, tallies.missing, "missing")] {
        let mut parts = vec![format!("{} {class}", counted(number, "week"))];
        if number > 0 {
            parts[0] += ", by Monday:";
            parts.extend(report.runs(kind).into_iter().map(run));
        }
        let lines = wrapped(&parts, WIDTH - INDENT);
        writeln!(out, "{}  {}", mark.shown(colours), lines.join(&format!("\n{:INDENT$}", "")))?;
    }
    Ok(())
}

/// Weeks that follow each other, with the Mondays of the first and the last.
fn run((first, last): (&DatedWeek, &DatedWeek)) -> String {
    let (number, monday) = (first.number.number, dates::day(first.monday));
    if first == last {
        return format!("W{number:02} {monday}");
    }
    format!("W{number:02}-W{:02} {monday} to {}", last.number.number, dates::day(last.monday))
}

/// A first part and items with commas, on as many lines as they need; none of them is broken.
fn wrapped(parts: &[String], width: usize) -> Vec<String> {
    let mut lines = vec![parts[0].clone()];
    for (place, item) in parts.iter().enumerate().skip(1) {
        let comma = if place + 1 < parts.len() { "," } else { "" };
        let line = lines.last_mut().expect("there is a first line");
        if line.len() + 1 + item.len() + comma.len() <= width {
            *line += &format!(" {item}{comma}");
        } else {
            lines.push(format!("{item}{comma}"));
        }
    }
    lines
}

#[cfg(test)]
mod tests {
    use super::*;
    use crate::weeks::iso_week::IsoWeek;
    use smocurant::{Tallies, WeekRange};
    use std::num::NonZeroU64;

    /// Three weeks of 1970, one of each kind.
    fn shown(colours: bool) -> String {
        let kinds = [Week::Reported(NonZeroU64::MIN), Week::Shut, Week::Missing];
        let first = 4 * dates::DAY;
        let dated = |(place, week)| {
            let monday = first + place * dates::WEEK;
            DatedWeek { monday, number: IsoWeek::of_monday(monday), week }
        };
        let range = WeekRange::new(first, first + 3 * dates::WEEK).unwrap();
        let tallies = Tallies { reported: 1, shut: 1, missing: 1 };
        let weeks = (0..).zip(kinds).map(dated).collect();
        let report = Report { range, weeks, tallies, uploads: 1, complete: true, notes: vec!["A note.".to_string()] };
        let mut out = Vec::new();
        write(&report, colours, &mut out).unwrap();
        String::from_utf8(out).unwrap()
    }

    #[test]
    fn colours_are_added_to_the_same_text() {
        let (plain, coloured) = (shown(false), shown(true));
        assert!(!plain.contains('\x1b') && plain.contains("\n            1   ███  [?]\n"), "{plain}");
        // Each mark has a colour in its cell and in the legend.
        assert_eq!((coloured.matches("\x1b[35m███\x1b[0m").count(), coloured.matches("\x1b[1;31m[?]\x1b[0m").count()), (2, 2));
        assert_eq!(coloured.replace("\x1b[35m", "").replace("\x1b[1;31m", "").replace("\x1b[0m", ""), plain);
    }

    #[test]
    fn lines_are_broken_between_items() {
        let parts = |items: &[&str]| items.iter().map(|item| item.to_string()).collect::<Vec<String>>();
        assert_eq!(wrapped(&parts(&["none"]), 9), ["none"]);
        assert_eq!(wrapped(&parts(&["two:", "aaaa", "bbbb"]), 15), ["two: aaaa, bbbb"]);
        assert_eq!(wrapped(&parts(&["two:", "aaaa", "bbbb"]), 14), ["two: aaaa,", "bbbb"]);
        assert_eq!(wrapped(&parts(&["two:", "aaaa", "bbbb"]), 9), ["two:", "aaaa,", "bbbb"]);
        assert_eq!(wrapped(&parts(&["two:", "aaaa", "bbbb"]), 1), ["two:", "aaaa,", "bbbb"]);
    }
}
