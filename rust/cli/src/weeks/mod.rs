//! The weeks of an upload log: reported, shut or missing.

mod closures;
pub mod dates;
pub mod iso_week;
mod layout;
mod log;
mod output;
mod report;
mod rfc3339;

use crate::destination;
use crate::failure::Failure;
use crate::options::weeks::{Format, Options};
use closures::Closures;
use log::Log;
use report::Report;
use smocurant::WeeksError;

/// Shows the weeks; the number of closures that were refused or could not be read.
pub fn run(options: &Options) -> Result<usize, Failure> {
    let log = Log::read(&options.logs, options.sort)?;
    let closures = Closures::read(&options.common, options.range)?;
    let reason = |error: WeeksError| match error {
        WeeksError::Log { place } => log.disorder(place),
        other => other.to_string(),
    };
    let weeks = smocurant::weeks(log.instants(), &closures.tables, options.range).map_err(|error| Failure::Wrong(reason(error)))?;
    let report = Report::new(&weeks, log.instants().len(), &closures);
    if options.format == Format::Csv {
        // The lines of this format have no place for them.
        report.notes.iter().for_each(|note| eprintln!("smocurant: {note}"));
    }
    destination::written(options.common.output.as_deref(), |out| output::write(options, &report, out))?;
    Ok(closures.refused)
}
