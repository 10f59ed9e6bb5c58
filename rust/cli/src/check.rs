//! The check of events: each text is judged by itself, without a time zone and without a window.

use crate::complaint::{Complaint, ShowLine};
use crate::destination;
use crate::failure::Failure;
use crate::inputs::{self, Source};
use crate::options::check::Options;
use std::io::{self, Write};

/// Judges the events; the number of those that are refused or cannot be read.
pub fn run(options: &Options) -> Result<usize, Failure> {
    let (sources, unreadable) = inputs::all_sources(&options.common.events);
    let show = options.common.show_line(ShowLine::IfPublic);
    let refused = destination::written(None, |out| check(&sources, show, out))?;
    Ok(unreadable + refused.unwrap_or(0))
}

fn check(sources: &[Source], show: ShowLine, out: &mut dyn Write) -> io::Result<usize> {
    let mut refused = 0;
    for source in sources {
        match judge(source, show) {
            Ok(()) => writeln!(out, "{}: accepted", source.name())?,
            Err(complaint) => {
                refused += 1;
                out.flush()?;
                source.complain(&complaint);
            }
        }
    }
    Ok(refused)
}

fn judge(source: &Source, show: ShowLine) -> Result<(), Complaint> {
    let text = source.text().map_err(|error| Complaint::new(format!("cannot be read: {error}")))?;
    smocurant::locate(&text).map_err(|fault| Complaint::of_event(&text, fault.status, show))
}
