//! Zone tables from the system: TZif files (RFC 8536), version 2 and later.
//!
//! A file has the changes of the past, and a rule for the time after them. The rule is carried on to two years after the window: one for an
//! occurrence that an override moves beyond it, and one for its length, since days of a length end at a local time. A table has 1,024 entries,
//! which is some 400 years of summer time; for windows that end later there is no table, rather than one with wrong offsets.
//!
//! ```no_run
//! use smocurant::{tzif, Window};
//!
//! let zone = tzif::system("Europe/London", Window::year(2026)?)?;
//! assert_eq!(zone.name(), "Europe/London");
//! # Ok::<(), Box<dyn std::error::Error>>(())
//! ```

mod file;
mod posix;
mod transitions;

use crate::window::Window;
use crate::zone::ZoneTable;
use std::path::{Path, PathBuf};
use std::{env, fmt, io};

/// Where systems keep their zones, unless `TZDIR` says otherwise.
const ZONE_FOLDER: &str = "/usr/share/zoneinfo";

/// Why there is no zone table.
#[derive(Debug)]
pub enum Error {
    /// The name cannot be that of a zone.
    Name(String),
    /// The file cannot be read.
    Read(PathBuf, io::Error),
    /// The file is no TZif file of version 2 or later; what is wrong.
    Form(&'static str),
    /// The file's instants count leap seconds.
    LeapSeconds,
    /// The window is so long that the zone changes more often than a table has entries.
    TooManyTransitions(usize),
}

impl fmt::Display for Error {
    fn fmt(&self, out: &mut fmt::Formatter) -> fmt::Result {
        match self {
            Error::Name(name) => write!(out, "\"{name}\" is not the name of a time zone"),
            Error::Read(path, error) => write!(out, "the time zone's file {} cannot be read: {error}", path.display()),
            Error::Form(what) => write!(out, "the time zone's file is not TZif of version 2 or later: {what}"),
            Error::LeapSeconds => write!(out, "the time zone's file counts leap seconds"),
            Error::TooManyTransitions(count) => {
                write!(out, "the zone changes {count} times up to the window's end, and a table has 1,024 entries; choose an earlier end")
            }
        }
    }
}

impl std::error::Error for Error {}

/// The table of a zone of the system, by its name: `Europe/London`. The folder is `TZDIR`, or else `/usr/share/zoneinfo`.
pub fn system(name: &str, window: Window) -> Result<ZoneTable, Error> {
    let folder = env::var_os("TZDIR").map_or_else(|| PathBuf::from(ZONE_FOLDER), PathBuf::from);
    in_folder(&folder, name, window)
}

/// The table of a zone whose file stands in a folder.
pub fn in_folder(folder: &Path, name: &str, window: Window) -> Result<ZoneTable, Error> {
    if !is_name(name) {
        return Err(Error::Name(name.to_string()));
    }
    let path = folder.join(name);
    let bytes = std::fs::read(&path).map_err(|error| Error::Read(path, error))?;
    table(name, &bytes, window)
}

/// Names have parts between slashes, and do not lead out of the folder.
fn is_name(name: &str) -> bool {
    let is_part = |part: &str| !part.is_empty() && part != "." && part != ".." && !part.contains('\0');
    name.split('/').all(is_part)
}

/// The table of a TZif file's bytes.
pub fn table(name: &str, bytes: &[u8], window: Window) -> Result<ZoneTable, Error> {
    let file = file::read(bytes)?;
    let (initial_offset, entries) = transitions::all(&file, window)?;
    Ok(ZoneTable::new(name, initial_offset, entries))
}
