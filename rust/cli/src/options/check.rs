//! The options of the command that checks events.

use super::common::Common;
use super::words::{Names, Word, Words};
use super::Command;

/// What `check --help` prints.
const HELP: &str = "\
Says whether JSCalendar events (RFC 8984) are accepted, and what is wrong with
those that are not. No time zone and no window is needed.

Usage: smocurant check [OPTIONS] EVENT...

  EVENT            a file with one event, a folder of such files (*.json),
                   or - for standard input

  --show-line      show the line of a wrong value also of events that do not
                   say that they are public
  --help           this text
  --version        the version

A refusal has a number and a sentence. For the numbers 20 to 26 the first wrong
value is shown: the file, its line and column (both from 1, the column in
characters), the path to the value, and the line with carets under it. The line
may have words that only the event's owner should see. It is shown without
being asked for only if the event's privacy is public, or if it has none.

Exit codes: 0 all events are accepted; 1 some event was refused or could not be
read; 2 wrong options; 3 the output could not be written.
";

const NAMES: Names = Names { flags: &["--show-line"], valued: &[] };

/// Which events to check, and how.
pub struct Options {
    pub common: Common,
}

/// Reads the words after `check`.
pub fn read(words: impl Iterator<Item = String>) -> Result<Command, String> {
    let mut common = Common::default();
    for word in Words::new(words, NAMES) {
        match word? {
            Word::Plain(event) => common.events.push(event),
            Word::Help => return Ok(Command::Help(HELP)),
            Word::Version => return Ok(Command::Version),
            Word::Flag(name) | Word::Valued(name, _) => {
                common.flag(&name);
            }
        }
    }
    if common.events.is_empty() {
        return Err("name an event's file, or a folder of events".to_string());
    }
    Ok(Command::Check(Options { common }))
}
