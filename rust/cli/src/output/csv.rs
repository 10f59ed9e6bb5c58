//! Comma-separated values (RFC 4180).

use super::Line;
use std::io::{self, Write};

/// The names of the columns.
pub fn start(has_titles: bool, out: &mut dyn Write) -> io::Result<()> {
    writeln!(out, "file,id,start,end,busy,all_day,floating{}", if has_titles { ",title" } else { "" })
}

/// One occurrence.
pub fn line(line: &Line, out: &mut dyn Write) -> io::Result<()> {
    let record = &line.record;
    let id = smocurant::time::written(record.id);
    let (start, end) = (line.time(record.start), line.time(record.end));
    let (busy, all_day, floating) = (record.busy, record.all_day, record.floating);
    let title = line.title.map_or(String::new(), |title| format!(",{}", quoted(&title.unescaped())));
    writeln!(out, "{},{id},{start},{end},{busy},{all_day},{floating}{title}", quoted(line.file))
}

/// A field, in quotes where it needs them.
fn quoted(field: &str) -> String {
    if field.contains([',', '"', '\n', '\r']) {
        format!("\"{}\"", field.replace('"', "\"\""))
    } else {
        field.to_string()
    }
}
