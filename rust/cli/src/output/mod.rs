//! Occurrences as lines, in the forms of output.

mod csv;
mod json_lines;
mod table;

use smocurant::{time, Record, Text};
use std::io::{self, Write};

/// How occurrences are written.
#[derive(Clone, Copy, Debug, PartialEq, Eq)]
pub enum Form {
    Table,
    Csv,
    JsonLines,
}

/// One occurrence to be written.
pub struct Line<'l> {
    /// The file's name.
    pub file: &'l str,
    /// The occurrence.
    pub record: Record,
    /// Its title, empty where it may not be shown. Where lines have no titles there is none.
    pub title: Option<Text<'l>>,
}

impl Line<'_> {
    /// A UTC time, or the local one of a floating event, which has no UTC time.
    fn time(&self, seconds: i64) -> String {
        time::written(seconds) + if self.record.floating { "" } else { "Z" }
    }
}

/// What stands before all files.
pub fn start(form: Form, has_titles: bool, out: &mut dyn Write) -> io::Result<()> {
    match form {
        Form::Csv => csv::start(has_titles, out),
        Form::Table | Form::JsonLines => Ok(()),
    }
}

/// What stands before the occurrences of a file.
pub fn file(form: Form, has_titles: bool, name: &str, occurrences: usize, out: &mut dyn Write) -> io::Result<()> {
    match form {
        Form::Table => table::file(has_titles, name, occurrences, out),
        Form::Csv | Form::JsonLines => Ok(()),
    }
}

/// An occurrence.
pub fn line(form: Form, line: &Line, out: &mut dyn Write) -> io::Result<()> {
    match form {
        Form::Table => table::line(line, out),
        Form::Csv => csv::line(line, out),
        Form::JsonLines => json_lines::line(line, out),
    }
}
