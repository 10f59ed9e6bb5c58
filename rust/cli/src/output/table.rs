//! A table for people to read.

use super::Line;
use std::io::{self, Write};

/// The file's name, and the heads of the columns.
pub fn file(has_titles: bool, name: &str, occurrences: usize, out: &mut dyn Write) -> io::Result<()> {
    match occurrences {
        0 => return writeln!(out, "{}: no occurrences", printable(name)),
        1 => writeln!(out, "{}: 1 occurrence", printable(name))?,
        _ => writeln!(out, "{}: {occurrences} occurrences", printable(name))?,
    }
    let title = if has_titles { "Title" } else { "" };
    let line = format!("  {:19}  {:20}  {:20}  {:21}  {title}", "Local id", "UTC start", "UTC end", "Marks");
    writeln!(out, "{}", line.trim_end())
}

/// One occurrence.
pub fn line(line: &Line, out: &mut dyn Write) -> io::Result<()> {
    let record = &line.record;
    let id = smocurant::time::written(record.id);
    let (start, end) = (line.time(record.start), line.time(record.end));
    let title = line.title.map_or(String::new(), |title| printable(&title.unescaped()));
    let shown = format!("  {id:19}  {start:20}  {end:20}  {:21}  {title}", marks(line));
    writeln!(out, "{}", shown.trim_end())
}

fn marks(line: &Line) -> String {
    let record = &line.record;
    let mut marks = vec![if record.busy { "busy" } else { "free" }];
    if record.all_day {
        marks.push("all-day");
    }
    if record.floating {
        marks.push("floating");
    }
    marks.join(" ")
}

/// A title cannot break the table, or steer the terminal.
fn printable(text: &str) -> String {
    text.chars().map(|letter| if letter.is_control() { ' ' } else { letter }).collect()
}
