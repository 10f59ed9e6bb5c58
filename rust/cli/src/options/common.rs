//! The options that more than one command has: which events, in which zones, and where the output goes.

use crate::complaint::ShowLine;
use crate::output::Form;
use smocurant::time;
use std::path::PathBuf;

/// The common options, as they are given.
#[derive(Default)]
pub struct Common {
    /// The words that name events: files, folders, or standard input.
    pub events: Vec<String>,
    pub zones: Vec<String>,
    pub floating: bool,
    pub zone_folder: Option<PathBuf>,
    pub output: Option<PathBuf>,
    pub quiet: bool,
    pub always_show_line: bool,
}

impl Common {
    /// Takes an option without a value, if it is one of these.
    pub fn flag(&mut self, name: &str) -> bool {
        match name {
            "--floating" => self.floating = true,
            "--quiet" => self.quiet = true,
            "--show-line" => self.always_show_line = true,
            _ => return false,
        }
        true
    }

    /// Whether the line of a wrong value is shown: as it is asked for, or else as a command has it.
    pub fn show_line(&self, otherwise: ShowLine) -> ShowLine {
        if self.always_show_line {
            ShowLine::Always
        } else {
            otherwise
        }
    }

    /// Takes an option with a value, if it is one of these; otherwise the value is given back.
    pub fn value(&mut self, name: &str, value: String) -> Option<String> {
        match name {
            "--zone" => self.zones.push(value),
            "--zones" => self.zone_folder = Some(value.into()),
            "--output" => self.output = Some(value.into()),
            _ => return Some(value),
        }
        None
    }
}

/// A date, or a date and a time of day.
pub fn date(value: &str) -> Result<i64, String> {
    time::read(value).ok_or_else(|| format!("\"{value}\" is no date such as 2026-01-01 or 2026-01-01T08:00:00"))
}

/// A year as a number.
pub fn year(value: &str) -> Result<i64, String> {
    value.parse().map_err(|_| format!("\"{value}\" is no year"))
}

/// The form of output that a name stands for.
pub fn form(value: &str) -> Option<Form> {
    match value {
        "table" => Some(Form::Table),
        "csv" => Some(Form::Csv),
        "jsonl" => Some(Form::JsonLines),
        _ => None,
    }
}
