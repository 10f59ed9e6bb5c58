//! The listing: each event is read, expanded and written.

use crate::complaint::ShowLine;
use crate::destination;
use crate::events::Events;
use crate::failure::Failure;
use crate::inputs::Source;
use crate::options::list::{Format, Options};
use crate::output::{self, Form, Line};
use crate::progress::Progress;
use smocurant::Table;
use std::io::{self, Write};

/// Its lines have titles.
const HAS_TITLES: bool = true;

/// Lists the occurrences; the number of events that were refused or could not be read.
pub fn run(options: &Options) -> Result<usize, Failure> {
    let events = Events::find(&options.common, options.window, options.common.show_line(ShowLine::IfPublic))?;
    let refused = destination::written(options.common.output.as_deref(), |out| list(options, &events, out))?;
    Ok(events.unreadable + refused.unwrap_or(0))
}

/// Writes all events; the number of those that came to nothing.
fn list(options: &Options, events: &Events, out: &mut dyn Write) -> io::Result<usize> {
    let mut progress = Progress::new(events.sources.len(), options.common.quiet);
    let mut refused = 0;
    if let Format::Lines(form) = options.format {
        output::start(form, HAS_TITLES, out)?;
    }
    for source in &events.sources {
        match (events.occurrences(source), options.format) {
            (Ok((text, table)), Format::Lines(form)) => write(form, source, &text, &table, &mut progress, out)?,
            (Ok((_, table)), Format::Raw) => out.write_all(table.as_bytes())?,
            (Err(complaint), _) => {
                refused += 1;
                out.flush()?;
                progress.clear();
                source.complain(&complaint);
            }
        }
        progress.file();
    }
    progress.clear();
    Ok(refused)
}

fn write(form: Form, source: &Source, text: &[u8], table: &Table, progress: &mut Progress, out: &mut dyn Write) -> io::Result<()> {
    let name = source.name();
    output::file(form, HAS_TITLES, &name, table.len(), out)?;
    for record in table {
        // Every record is an occurrence, so its title is never refused.
        let title = smocurant::title(text, record.id).ok();
        output::line(form, &Line { file: &name, record, title }, out)?;
        progress.occurrence();
    }
    Ok(())
}
