//! The options of the command that shows sheets.

use super::common::{form, Common};
use super::words::{Names, Word, Words};
use super::Command;
use crate::inputs::Source;
use crate::output::Form;

/// What `sheet --help` prints.
const HELP: &str = "\
Shows the records of sheets, which are what smocurant --format raw writes.

Usage: smocurant sheet [OPTIONS] SHEET...

  SHEET            a file with one sheet, which is that of one event, or - for
                   standard input

Output:
  --format FORMAT  table   for people to read (default)
                   csv     a line for each record
                   jsonl   a JSON object in a line for each record
  --output FILE    where to write, instead of standard output
  --quiet          no line of progress

  --help           this text
  --version        the version

A sheet has times and marks, and no titles. It is judged as a whole: where any
of it is wrong, none of it is shown, and a number from 34 to 40 says why.

Exit codes: 0 done; 1 some sheet was refused or could not be read; 2 wrong
options; 3 the output could not be written.
";

const NAMES: Names = Names { flags: &["--quiet"], valued: &["--format", "--output"] };

/// Which sheets to show, and how.
pub struct Options {
    pub common: Common,
    pub sheets: Vec<Source>,
    pub form: Form,
}

/// Reads the words after `sheet`.
pub fn read(words: impl Iterator<Item = String>) -> Result<Command, String> {
    let mut options = Options { common: Common::default(), sheets: Vec::new(), form: Form::Table };
    for word in Words::new(words, NAMES) {
        match word? {
            Word::Plain(sheet) => options.sheets.push(Source::named(&sheet)),
            Word::Help => return Ok(Command::Help(HELP)),
            Word::Version => return Ok(Command::Version),
            Word::Flag(_) => options.common.quiet = true,
            Word::Valued(name, value) => {
                if let Some(value) = options.common.value(&name, value) {
                    options.form = form(&value).ok_or_else(|| format!("\"{value}\" is no format; there are table, csv and jsonl"))?;
                }
            }
        }
    }
    if options.sheets.is_empty() {
        return Err("name a sheet's file".to_string());
    }
    Ok(Command::Sheet(options))
}
