//! JSON lines.

use super::Line;
use std::fmt::Write as _;
use std::io::{self, Write};

/// One occurrence. The title is the event's own JSON, escapes kept.
pub fn line(line: &Line, out: &mut dyn Write) -> io::Result<()> {
    let record = &line.record;
    let id = smocurant::time::written(record.id);
    let (start, end) = (line.time(record.start), line.time(record.end));
    let (busy, all_day, floating) = (record.busy, record.all_day, record.floating);
    let file = escaped(line.file);
    let title = line.title.map_or(String::new(), |title| format!(r#","title":"{}""#, title.as_str()));
    writeln!(
        out,
        r#"{{"file":"{file}","id":"{id}","start":"{start}","end":"{end}","busy":{busy},"allDay":{all_day},"floating":{floating}{title}}}"#
    )
}

/// A name as the inside of a JSON string.
fn escaped(name: &str) -> String {
    let mut escaped = String::new();
    for letter in name.chars() {
        match letter {
            '"' | '\\' => escaped.extend(['\\', letter]),
            _ if letter < ' ' => write!(escaped, "\\u{:04x}", u32::from(letter)).expect("a string can be written to"),
            _ => escaped.push(letter),
        }
    }
    escaped
}
