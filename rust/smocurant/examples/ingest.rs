//! How an ingest service calls the library: one buffer for all events, and a refusal is a number to be stored, not a failure.
//!
//!     cargo run -p smocurant --example ingest -- Europe/London 2026 ../examples/events/*.json

use smocurant::{expand, time, title, tzif, Record, Status, Window, ZoneTable};

fn main() -> Result<(), Box<dyn std::error::Error>> {
    let mut words = std::env::args().skip(1);
    let name = words.next().ok_or("ingest ZONE YEAR FILE...")?;
    let window = Window::year(words.next().ok_or("ingest ZONE YEAR FILE...")?.parse()?)?;
    let zone = tzif::system(&name, window)?;
    let mut buffer = vec![0; 1 << 16];
    for file in words {
        match ingest(&std::fs::read(&file)?, &zone, window, &mut buffer) {
            Ok(line) => println!("{file}: {line}"),
            Err(status) => println!("{file}: refused with {}: {}", status.number(), status.sentence()),
        }
    }
    Ok(())
}

/// What is kept of one event: its table goes on as bytes; here it is only counted.
fn ingest(text: &[u8], zone: &ZoneTable, window: Window, buffer: &mut [u8]) -> Result<String, Status> {
    let records: Vec<Record> = expand(text, zone, window, buffer)?.records().collect();
    let Some(first) = records.first() else { return Ok("no occurrences".to_string()) };
    let busy: i64 = records.iter().filter(|record| record.busy).map(|record| record.end - record.start).sum();
    let (count, start) = (records.len(), time::written(first.id));
    Ok(format!("{count} from {start} on, {} busy hours, \"{}\"", busy / 3_600, title(text, first.id)?))
}
