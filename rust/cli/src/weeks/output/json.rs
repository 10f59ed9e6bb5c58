//! One JSON object. All its strings are dates and the program's own words, so nothing has to be escaped.

use crate::weeks::dates;
use crate::weeks::report::{DatedWeek, Report};
use std::io::{self, Write};

/// The range, the tallies, whether all closures were used, the weeks and the notes.
pub fn write(report: &Report, out: &mut dyn Write) -> io::Result<()> {
    let (from, to) = (dates::day(report.range.start()), dates::day(report.range.end()));
    let (tallies, uploads) = (report.tallies, report.uploads);
    writeln!(out, "{{")?;
    writeln!(out, r#"  "range": {{"from": "{from}", "to": "{to}"}},"#)?;
    writeln!(
        out,
        r#"  "tallies": {{"reported": {}, "shut": {}, "missing": {}, "uploads": {uploads}}},"#,
        tallies.reported, tallies.shut, tallies.missing
    )?;
    writeln!(out, r#"  "complete": {},"#, report.complete)?;
    list("weeks", &report.weeks.iter().map(week).collect::<Vec<String>>(), ",", out)?;
    list("notes", &report.notes.iter().map(|note| format!("\"{note}\"")).collect::<Vec<String>>(), "", out)?;
    writeln!(out, "}}")
}

/// A member that is a list, with a line for each of its values.
fn list(name: &str, values: &[String], after: &str, out: &mut dyn Write) -> io::Result<()> {
    if values.is_empty() {
        return writeln!(out, r#"  "{name}": []{after}"#);
    }
    writeln!(out, r#"  "{name}": ["#)?;
    writeln!(out, "    {}", values.join(",\n    "))?;
    writeln!(out, "  ]{after}")
}

fn week(week: &DatedWeek) -> String {
    let (monday, number, class, uploads) = (dates::day(week.monday), week.number, week.class(), week.week.uploads());
    format!(r#"{{"monday": "{monday}", "isoWeek": "{number}", "class": "{class}", "uploads": {uploads}}}"#)
}
