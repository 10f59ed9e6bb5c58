//! The options of the command that lists occurrences.

use super::common::{date, form, year, Common};
use super::words::{Names, Word, Words};
use super::Command;
use crate::output::Form;
use smocurant::Window;

/// What `--help` prints.
const HELP: &str = "\
Lists every occurrence of JSCalendar events (RFC 8984) in a window.

Usage: smocurant [OPTIONS] EVENT...
       smocurant weeks [OPTIONS] --log FILE CLOSURE...
       smocurant sheet [OPTIONS] SHEET...
       smocurant check [OPTIONS] EVENT...

The second sorts the weeks of an upload log into reported, shut and missing
ones; smocurant weeks --help has its options. The third shows what --format raw
has written; smocurant sheet --help has its options. The fourth says what is
wrong with events; smocurant check --help has its options.

  EVENT            a file with one event, a folder of such files (*.json),
                   or - for standard input

Time zone:
  --zone NAME      the events' time zone, such as Europe/London; may be given
                   more than once, for events of several zones
  --floating       the events have no time zone
  --zones FOLDER   where the zones' files are: by default $TZDIR, or else
                   /usr/share/zoneinfo

Window, in local time:
  --from DATE      its first date, as 2026-01-01 or 2026-01-01T08:00:00
  --to DATE        the first date after it
  --year YEAR      a whole year
  --always         all years from 1601 to 9998

Output:
  --format FORMAT  table   for people to read (default)
                   csv     a line for each occurrence
                   jsonl   a JSON object in a line for each occurrence
                   raw     the library's bytes, a sheet for each event: 28
                           for each occurrence and a trailer of 12
  --output FILE    where to write, instead of standard output
  --quiet          no line of progress
  --show-line      where a value is wrong, show its line also of events that
                   do not say that they are public

  --help           this text
  --version        the version

An event shows its title only if it is public. A secret event shows nothing:
it looks like one without occurrences.

Exit codes: 0 done; 1 some event was refused or could not be read; 2 wrong
options or time zone; 3 the output could not be written.
";

const NAMES: Names = Names {
    flags: &["--floating", "--always", "--quiet", "--show-line"],
    valued: &["--zone", "--zones", "--from", "--to", "--year", "--format", "--output"],
};

/// What to list, and how.
pub struct Options {
    pub common: Common,
    pub window: Window,
    pub format: Format,
}

/// How occurrences are written.
#[derive(Clone, Copy, Debug, PartialEq, Eq)]
pub enum Format {
    /// A line for each.
    Lines(Form),
    /// The sheets' own bytes.
    Raw,
}

/// The options as they are given.
#[derive(Default)]
struct Given {
    common: Common,
    from: Option<i64>,
    to: Option<i64>,
    year: Option<i64>,
    always: bool,
    format: Option<Format>,
}

/// Reads the words after the program's name.
pub fn read(words: impl Iterator<Item = String>) -> Result<Command, String> {
    let mut given = Given::default();
    for word in Words::new(words, NAMES) {
        match word? {
            Word::Plain(event) => given.common.events.push(event),
            Word::Help => return Ok(Command::Help(HELP)),
            Word::Version => return Ok(Command::Version),
            Word::Flag(name) if given.common.flag(&name) => {}
            Word::Flag(_) => given.always = true,
            Word::Valued(name, value) => take(&mut given, &name, value)?,
        }
    }
    finish(given).map(Command::List)
}

/// Takes an option with its value.
fn take(given: &mut Given, name: &str, value: String) -> Result<(), String> {
    let Some(value) = given.common.value(name, value) else { return Ok(()) };
    match name {
        "--from" => given.from = Some(date(&value)?),
        "--to" => given.to = Some(date(&value)?),
        "--year" => given.year = Some(year(&value)?),
        _ => given.format = Some(format(&value)?),
    }
    Ok(())
}

fn format(value: &str) -> Result<Format, String> {
    match form(value) {
        Some(form) => Ok(Format::Lines(form)),
        None if value == "raw" => Ok(Format::Raw),
        None => Err(format!("\"{value}\" is no format; there are table, csv, jsonl and raw")),
    }
}

fn finish(given: Given) -> Result<Options, String> {
    if given.common.events.is_empty() {
        return Err("name an event's file, or a folder of events".to_string());
    }
    if given.common.zones.is_empty() && !given.common.floating {
        return Err("give the events' time zone by --zone NAME, or say --floating".to_string());
    }
    Ok(Options { window: window(&given)?, common: given.common, format: given.format.unwrap_or(Format::Lines(Form::Table)) })
}

/// The window, said in one of three ways.
fn window(given: &Given) -> Result<Window, String> {
    let window = match (given.from, given.to, given.year, given.always) {
        (Some(from), Some(to), None, false) => Window::new(from, to),
        (None, None, Some(year), false) => Window::year(year),
        (None, None, None, true) => Ok(Window::WIDEST),
        (None, None, None, false) => return Err("give the window by --from and --to, by --year, or by --always".to_string()),
        (Some(_), None, None, false) | (None, Some(_), None, false) => return Err("--from and --to go together".to_string()),
        _ => return Err("give the window in one way: --from and --to, --year, or --always".to_string()),
    };
    window.map_err(|status| status.to_string())
}
