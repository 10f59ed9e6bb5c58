//! What JSCalendar events say to a planner: every occurrence in a window, the weeks of an upload log that were shut and that went missing, the
//! records of sheets that were stored, and what is wrong with events that are refused.

mod check;
mod complaint;
mod destination;
mod events;
mod failure;
mod inputs;
mod list;
mod options;
mod output;
mod progress;
mod sheet;
mod snippet;
mod weeks;

use failure::Failure;
use options::Command;
use std::io::Write;
use std::process::ExitCode;

/// Some event or sheet was refused or could not be read.
const SOME_REFUSED: u8 = 1;
/// The options or the log are wrong, or a time zone is not there.
const WRONG_OPTIONS: u8 = 2;
/// The output could not be written.
const NOT_WRITTEN: u8 = 3;

fn main() -> ExitCode {
    let words: Result<Vec<String>, _> = std::env::args_os().skip(1).map(|word| word.into_string()).collect();
    let Ok(words) = words else { return fail(WRONG_OPTIONS, "the options are no UTF-8") };
    let refused = match options::read(words) {
        Ok(Command::Help(text)) => return say(text),
        Ok(Command::Version) => return say(concat!("smocurant ", env!("CARGO_PKG_VERSION"), "\n")),
        Ok(Command::Check(options)) => check::run(&options),
        Ok(Command::List(options)) => list::run(&options),
        Ok(Command::Sheet(options)) => sheet::run(&options),
        Ok(Command::Weeks(options)) => weeks::run(&options),
        Err(reason) => return fail(WRONG_OPTIONS, &reason),
    };
    match refused {
        Ok(0) => ExitCode::SUCCESS,
        Ok(_) => ExitCode::from(SOME_REFUSED),
        Err(Failure::Wrong(reason)) => fail(WRONG_OPTIONS, &reason),
        Err(Failure::Output(reason)) => fail(NOT_WRITTEN, &reason),
    }
}

/// Writes a text; a reader that has gone away is no failure.
fn say(text: &str) -> ExitCode {
    let _ = std::io::stdout().write_all(text.as_bytes());
    ExitCode::SUCCESS
}

fn fail(code: u8, reason: &str) -> ExitCode {
    eprintln!("smocurant: {reason}");
    ExitCode::from(code)
}
