//! A picture to print. Kinds of weeks are told apart by words, frames and shades, so that it can be read in black and white. All its text is
//! dates, numbers and the program's own words, so nothing has to be escaped.

use super::TITLE;
use crate::weeks::dates;
use crate::weeks::layout::{self, Row, COLUMNS};
use crate::weeks::report::{counted, short, DatedWeek, Report};
use smocurant::Week;
use std::io::{self, Write};

/// Sizes, in the picture's own units.
const MARGIN: usize = 24;
const LABEL: usize = 56;
const CELL_WIDTH: usize = 62;
const CELL_HEIGHT: usize = 62;
const GAP: usize = 6;
const MONTHS: usize = 18;
const ROW: usize = MONTHS + CELL_HEIGHT + 10;
const HEADING: usize = 62;
const LEGEND: usize = 44;
const NOTE: usize = 20;

/// How kinds of weeks are drawn; the stripes are for missing ones.
const STYLE: &str = r##"<style>
text { font-family: "Helvetica Neue", Helvetica, Arial, "Liberation Sans", sans-serif; fill: #1c1c1c; }
.title { font-size: 22px; font-weight: bold; }
.line { font-size: 14px; }
.year { font-size: 17px; font-weight: bold; }
.month { font-size: 13px; font-weight: bold; fill: #444444; }
.number { font-size: 12px; font-weight: bold; text-anchor: middle; }
.date { font-size: 11px; text-anchor: middle; }
.mark { font-size: 18px; text-anchor: middle; }
.reported rect { fill: #f4f6f4; stroke: #9aa29a; }
.shut rect { fill: #3a3f4b; stroke: #3a3f4b; }
.shut text { fill: #ffffff; }
.shut .mark { font-weight: bold; }
.missing rect { fill: url(#stripes); stroke: #a3120a; stroke-width: 3; stroke-dasharray: 7 4; }
.missing .mark { font-size: 24px; font-weight: bold; fill: #a3120a; }
</style>
<defs><pattern id="stripes" width="8" height="8" patternUnits="userSpaceOnUse" patternTransform="rotate(45)">
<rect width="8" height="8" fill="#ffffff" stroke="none"/><path d="M0 0V8" stroke="#f8e0dd" stroke-width="5"/>
</pattern></defs>"##;

/// The picture as a file of its own: a heading, the legend with the tallies, the weeks, and the notes.
pub fn write(report: &Report, out: &mut dyn Write) -> io::Result<()> {
    let rows = layout::rows(&report.weeks);
    let (width, legend_top) = (2 * MARGIN + inner_width(&rows), MARGIN + HEADING);
    let (rows_top, notes_top) = (legend_top + LEGEND, legend_top + LEGEND + rows.len() * ROW);
    let height = notes_top + report.notes.len() * NOTE + MARGIN;
    writeln!(out, r#"<?xml version="1.0" encoding="UTF-8"?>"#)?;
    start(&format!("0 0 {width} {height}"), &format!("{TITLE}: {}", report.span()), out)?;
    writeln!(out, "<title>{TITLE}</title>\n{STYLE}\n<rect width=\"{width}\" height=\"{height}\" fill=\"#ffffff\"/>")?;
    text(MARGIN, MARGIN + 20, "title", TITLE, out)?;
    text(MARGIN, MARGIN + 44, "line", &report.span(), out)?;
    legend(report, legend_top, out)?;
    quarters(&rows, rows_top, out)?;
    for (place, note) in report.notes.iter().enumerate() {
        text(MARGIN, notes_top + 14 + place * NOTE, "line", note, out)?;
    }
    writeln!(out, "</svg>")
}

/// The legend and the weeks for a page that has the heading and the notes. Each year is a picture of its own, so that pages break between years.
pub fn write_inline(report: &Report, out: &mut dyn Write) -> io::Result<()> {
    let rows = layout::rows(&report.weeks);
    // Frames are a little wider than their cells.
    let (left, width) = (MARGIN - 2, inner_width(&rows) + 4);
    start(&format!("{left} 0 {width} {LEGEND}"), "Legend with the tallies", out)?;
    writeln!(out, "{STYLE}")?;
    legend(report, 0, out)?;
    writeln!(out, "</svg>")?;
    for year in rows.chunk_by(|one, next| one.year == next.year) {
        start(&format!("{left} 0 {width} {}", year.len() * ROW), &format!("The weeks of {}", year[0].year), out)?;
        quarters(year, 0, out)?;
        writeln!(out, "</svg>")?;
    }
    Ok(())
}

/// The width of all columns; the last one is only for years of 53 weeks.
fn inner_width(rows: &[Row]) -> usize {
    let columns = if rows.iter().any(|row| row.cells[COLUMNS - 1].is_some()) { COLUMNS } else { COLUMNS - 1 };
    LABEL + columns * (CELL_WIDTH + GAP) - GAP
}

fn start(view: &str, told: &str, out: &mut dyn Write) -> io::Result<()> {
    writeln!(out, r#"<svg xmlns="http://www.w3.org/2000/svg" viewBox="{view}" role="img" aria-label="{told}">"#)
}

fn quarters(rows: &[Row], top: usize, out: &mut dyn Write) -> io::Result<()> {
    rows.iter().enumerate().try_for_each(|(place, row)| quarter(row, top + place * ROW, out))
}

/// A sample of each kind, with its tally.
fn legend(report: &Report, top: usize, out: &mut dyn Write) -> io::Result<()> {
    let tallies = report.tallies;
    let reported = format!("{} reported, with n uploads; {} in all", counted(tallies.reported, "week"), report.uploads);
    let samples = [
        ("reported", "n", reported, MARGIN),
        ("shut", "shut", counted(tallies.shut, "week") + " shut", MARGIN + 470),
        ("missing", "?", counted(tallies.missing, "week") + " missing", MARGIN + 690),
    ];
    for (class, mark, words, x) in samples {
        writeln!(out, r#"<g class="{class}"><rect x="{x}" y="{}" width="{CELL_WIDTH}" height="26" rx="3"/>"#, top + 2)?;
        text(x + CELL_WIDTH / 2, top + 22, "mark", mark, out)?;
        writeln!(out, "</g>")?;
        text(x + CELL_WIDTH + 10, top + 20, "line", &words, out)?;
    }
    Ok(())
}

/// The year, the months, and a cell for each week.
fn quarter(row: &Row, top: usize, out: &mut dyn Write) -> io::Result<()> {
    if row.starts_year {
        text(MARGIN, top + MONTHS + 18, "year", &row.year.to_string(), out)?;
    }
    for (column, cell) in row.cells.iter().enumerate() {
        let x = MARGIN + LABEL + column * (CELL_WIDTH + GAP);
        if let Some(month) = row.month(column) {
            text(x, top + MONTHS - 5, "month", month, out)?;
        }
        if let Some(week) = cell {
            draw(week, x, top + MONTHS, out)?;
        }
    }
    Ok(())
}

/// A week: its number, its Monday, and its uploads or what became of it.
fn draw(week: &DatedWeek, x: usize, y: usize, out: &mut dyn Write) -> io::Result<()> {
    let class = week.class();
    let (mark, told) = match week.week {
        Week::Reported(uploads) => (short(uploads.get()), counted(uploads.get(), "upload")),
        Week::Shut => ("shut".to_string(), class.to_string()),
        Week::Missing => ("?".to_string(), class.to_string()),
    };
    writeln!(out, r#"<g class="{class}"><title>{}, Monday {}: {told}</title>"#, week.number, dates::day(week.monday))?;
    writeln!(out, r#"<rect x="{x}" y="{y}" width="{CELL_WIDTH}" height="{CELL_HEIGHT}" rx="3"/>"#)?;
    let middle = x + CELL_WIDTH / 2;
    text(middle, y + 15, "number", &format!("W{:02}", week.number.number), out)?;
    text(middle, y + 38, "mark", &mark, out)?;
    text(middle, y + 55, "date", &dates::day_and_month(week.monday), out)?;
    writeln!(out, "</g>")
}

fn text(x: usize, y: usize, class: &str, words: &str, out: &mut dyn Write) -> io::Result<()> {
    writeln!(out, r#"<text class="{class}" x="{x}" y="{y}">{words}</text>"#)
}
