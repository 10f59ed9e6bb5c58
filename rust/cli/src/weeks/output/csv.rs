//! Comma-separated values (RFC 4180).

use crate::weeks::dates;
use crate::weeks::report::Report;
use std::io::{self, Write};

/// The names of the columns, and a line for each week.
pub fn write(report: &Report, out: &mut dyn Write) -> io::Result<()> {
    writeln!(out, "monday,iso_week,class,uploads")?;
    for week in &report.weeks {
        writeln!(out, "{},{},{},{}", dates::day(week.monday), week.number, week.class(), week.week.uploads())?;
    }
    Ok(())
}
