//! The forms of output.

mod csv;
mod html;
mod json;
mod screen;
mod svg;

use super::report::Report;
use crate::options::weeks::{Format, Options};
use std::env;
use std::io::{self, IsTerminal, Write};

/// The heading of what people read.
const TITLE: &str = "Weeks that were shut and weeks that went missing";

/// Writes a report in the form that is asked for.
pub fn write(options: &Options, report: &Report, out: &mut dyn Write) -> io::Result<()> {
    match options.format {
        Format::Screen => screen::write(report, has_colours(options), out),
        Format::Csv => csv::write(report, out),
        Format::Json => json::write(report, out),
        Format::Svg => svg::write(report, out),
        Format::Html => html::write(report, out),
    }
}

/// Colours are for terminals, and not for those of people who do not want them (no-color.org).
fn has_colours(options: &Options) -> bool {
    let is_set = |name: &str| env::var_os(name).is_some_and(|value| !value.is_empty());
    let is_dumb = env::var_os("TERM").is_some_and(|name| name == "dumb");
    options.common.output.is_none() && io::stdout().is_terminal() && !is_set("NO_COLOR") && !is_dumb
}
