//! The options of the command that sorts weeks.

use super::common::{date, year, Common};
use super::words::{Names, Word, Words};
use super::Command;
use crate::weeks::dates::{self, WEEK};
use crate::weeks::iso_week::IsoWeek;
use smocurant::WeekRange;

/// What `weeks --help` prints.
const HELP: &str = "\
Sorts the weeks of an upload log into reported ones (with uploads), shut ones
(without, and a closure touches them) and missing ones (neither).

Usage: smocurant weeks [OPTIONS] --log FILE CLOSURE...

  CLOSURE          a file with one event (JSCalendar, RFC 8984) that shuts the
                   hospital, a folder of such files (*.json), or - for standard
                   input

Log:
  --log FILE       the instants of the uploads, one a line, none earlier than
                   the one before it; - is standard input. Given more than
                   once, the logs follow each other.
  --sort           put the instants in order first

  An instant is a date and time of RFC 3339 with its offset from UTC, such as
  2026-01-05T08:00:00Z or 2026-01-05T09:00:00.5+01:00, or a number of seconds
  from 1970-01-01T00:00:00Z. A fraction is cut off; a leap second, 23:59:60Z,
  counts as 23:59:59Z. Empty lines and lines that begin with # are left out.

Range, in whole weeks of UTC:
  --from DATE      its first Monday, as 2025-12-29
  --to DATE        the first Monday after it
  --year YEAR      the weeks of an ISO year: W01 to W52 or W53

Time zone of the closures:
  --zone NAME      such as Europe/London; may be given more than once, for
                   closures of several zones
  --floating       closures without a time zone: they count as UTC, and the
                   output says so. They are taken without this option, too.
  --zones FOLDER   where the zones' files are: by default $TZDIR, or else
                   /usr/share/zoneinfo

Output:
  --format FORMAT  screen  the year at a glance, in the terminal (default)
                   csv     a line for each week
                   json    one object: range, tallies, complete (were all
                           closures used?), weeks and notes
                   svg     a picture to print
                   html    a page to print: the picture and the weeks' dates
  --output FILE    where to write, instead of standard output
  --quiet          no line of progress
  --show-line      where a value of a closure is wrong, show its line

  --help           this text
  --version        the version

A closure that begins before the range and reaches into it is seen. So is an
occurrence that an override moves into it by up to ten years (3,653 days); one
that is moved further may not be. Every occurrence shuts the weeks it touches,
busy or free. Only times are shown, never a title; a secret closure shuts
nothing.

Exit codes: 0 done; 1 some closure was refused or could not be read, and the
output says that it is incomplete; 2 wrong options, log, range or time zone;
3 the output could not be written.
";

const NAMES: Names = Names {
    flags: &["--floating", "--quiet", "--show-line", "--sort"],
    valued: &["--zone", "--zones", "--log", "--from", "--to", "--year", "--format", "--output"],
};

/// Years whose weeks have dates of four digits.
const YEARS: std::ops::RangeInclusive<i64> = 1..=9998;

/// Which weeks to sort, and how to show them.
pub struct Options {
    /// The closures are its events.
    pub common: Common,
    pub logs: Vec<String>,
    pub sort: bool,
    pub range: WeekRange,
    pub format: Format,
}

/// How weeks are shown.
#[derive(Clone, Copy, Debug, PartialEq, Eq)]
pub enum Format {
    Screen,
    Csv,
    Json,
    Svg,
    Html,
}

/// The options as they are given.
#[derive(Default)]
struct Given {
    common: Common,
    logs: Vec<String>,
    sort: bool,
    from: Option<i64>,
    to: Option<i64>,
    year: Option<i64>,
    format: Option<Format>,
}

/// Reads the words after `weeks`.
pub fn read(words: impl Iterator<Item = String>) -> Result<Command, String> {
    let mut given = Given::default();
    for word in Words::new(words, NAMES) {
        match word? {
            Word::Plain(closure) => given.common.events.push(closure),
            Word::Help => return Ok(Command::Help(HELP)),
            Word::Version => return Ok(Command::Version),
            Word::Flag(name) if given.common.flag(&name) => {}
            Word::Flag(_) => given.sort = true,
            Word::Valued(name, value) => take(&mut given, &name, value)?,
        }
    }
    finish(given).map(Command::Weeks)
}

/// Takes an option with its value.
fn take(given: &mut Given, name: &str, value: String) -> Result<(), String> {
    let Some(value) = given.common.value(name, value) else { return Ok(()) };
    match name {
        "--log" => given.logs.push(value),
        "--from" => given.from = Some(monday(name, &value)?),
        "--to" => given.to = Some(monday(name, &value)?),
        "--year" => given.year = Some(year(&value)?),
        _ => given.format = Some(format(&value)?),
    }
    Ok(())
}

/// A date that is a Monday.
fn monday(name: &str, value: &str) -> Result<i64, String> {
    let seconds = date(value)?;
    let monday = seconds - dates::since_monday(seconds);
    if monday == seconds {
        return Ok(monday);
    }
    let (before, after) = (dates::day(monday), dates::day(monday + WEEK));
    Err(format!("{name} {value} is not the start of a Monday; the nearest are {before} and {after}"))
}

fn format(value: &str) -> Result<Format, String> {
    match value {
        "screen" => Ok(Format::Screen),
        "csv" => Ok(Format::Csv),
        "json" => Ok(Format::Json),
        "svg" => Ok(Format::Svg),
        "html" => Ok(Format::Html),
        _ => Err(format!("\"{value}\" is no format; there are screen, csv, json, svg and html")),
    }
}

fn finish(given: Given) -> Result<Options, String> {
    if given.logs.is_empty() {
        return Err("give the log of the uploads by --log FILE".to_string());
    }
    if given.common.events.is_empty() {
        return Err("name a closure's file, or a folder of closures".to_string());
    }
    let inputs = given.logs.iter().chain(&given.common.events).filter(|word| *word == "-");
    if inputs.count() > 1 {
        return Err("standard input, -, can be read only once".to_string());
    }
    let range = range(&given)?;
    // Without a zone there can only be floating closures.
    let floating = given.common.floating || given.common.zones.is_empty();
    let common = Common { floating, ..given.common };
    Ok(Options { common, logs: given.logs, sort: given.sort, range, format: given.format.unwrap_or(Format::Screen) })
}

/// The range, said in one of two ways.
fn range(given: &Given) -> Result<WeekRange, String> {
    let (from, to) = match (given.from, given.to, given.year) {
        (Some(from), Some(to), None) => (from, to),
        (None, None, Some(year)) if YEARS.contains(&year) => (IsoWeek::first_monday(year), IsoWeek::first_monday(year + 1)),
        (None, None, Some(year)) => return Err(format!("{year} is no year from 1 to 9998")),
        (None, None, None) => return Err("give the range by --from and --to, or by --year".to_string()),
        (Some(_), None, None) | (None, Some(_), None) => return Err("--from and --to go together".to_string()),
        _ => return Err("give the range in one way: --from and --to, or --year".to_string()),
    };
    WeekRange::new(from, to).map_err(|_| "--to lies before --from".to_string())
}
