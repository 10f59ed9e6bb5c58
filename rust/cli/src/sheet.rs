//! Sheets that are read back: each is judged by the library, and its records are written.

use crate::complaint::Complaint;
use crate::destination;
use crate::failure::Failure;
use crate::inputs::Source;
use crate::options::sheet::Options;
use crate::output::{self, Form, Line};
use crate::progress::Progress;
use smocurant::{Status, Table};
use std::io::{self, Write};

/// A sheet has times and marks, and no titles.
const HAS_TITLES: bool = false;

/// Shows the records; the number of sheets that were refused or could not be read.
pub fn run(options: &Options) -> Result<usize, Failure> {
    let refused = destination::written(options.common.output.as_deref(), |out| show(options, out))?;
    Ok(refused.unwrap_or(0))
}

/// Writes all sheets; the number of those that came to nothing.
fn show(options: &Options, out: &mut dyn Write) -> io::Result<usize> {
    let mut progress = Progress::new(options.sheets.len(), options.common.quiet);
    let mut refused = 0;
    output::start(options.form, HAS_TITLES, out)?;
    for source in &options.sheets {
        match table(source) {
            Ok(table) => write(options.form, source, &table, &mut progress, out)?,
            Err(complaint) => {
                refused += 1;
                out.flush()?;
                progress.clear();
                source.complain(&complaint);
            }
        }
        progress.file();
    }
    progress.clear();
    Ok(refused)
}

/// The table of a sheet, or what is wrong with it.
fn table(source: &Source) -> Result<Table<'static>, Complaint> {
    let bytes = source.sheet().map_err(|error| Complaint::new(format!("cannot be read: {error}")))?;
    Table::read(bytes).map_err(|status| {
        let hint = if status == Status::SheetDistance { " A file must have one sheet, which is that of one event." } else { "" };
        Complaint::refused(status, hint)
    })
}

fn write(form: Form, source: &Source, table: &Table, progress: &mut Progress, out: &mut dyn Write) -> io::Result<()> {
    let name = source.name();
    output::file(form, HAS_TITLES, &name, table.len(), out)?;
    for record in table {
        output::line(form, &Line { file: &name, record, title: None }, out)?;
        progress.occurrence();
    }
    Ok(())
}
