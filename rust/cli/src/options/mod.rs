//! The options of the command line.

pub mod check;
mod common;
pub mod list;
pub mod sheet;
pub mod weeks;
mod words;

pub use common::Common;

/// What to do.
pub enum Command {
    /// Show a help text.
    Help(&'static str),
    /// Show the version.
    Version,
    /// Judge events.
    Check(check::Options),
    /// List occurrences.
    List(list::Options),
    /// Show the records of sheets.
    Sheet(sheet::Options),
    /// Sort the weeks of a log.
    Weeks(weeks::Options),
}

/// Reads the words of the command line. The first of them may name a command; without one, occurrences are listed.
pub fn read(words: Vec<String>) -> Result<Command, String> {
    match words.split_first() {
        Some((first, rest)) if first == "check" => {
            check::read(rest.iter().cloned()).map_err(|reason| format!("{reason}\nsmocurant check --help lists the options."))
        }
        Some((first, rest)) if first == "weeks" => {
            weeks::read(rest.iter().cloned()).map_err(|reason| format!("{reason}\nsmocurant weeks --help lists the options."))
        }
        Some((first, rest)) if first == "sheet" => {
            sheet::read(rest.iter().cloned()).map_err(|reason| format!("{reason}\nsmocurant sheet --help lists the options."))
        }
        _ => list::read(words.into_iter()).map_err(|reason| format!("{reason}\nsmocurant --help lists the options.")),
    }
}
