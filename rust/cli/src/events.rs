//! The events that a command is given: where they are, their zones, and their occurrences in a window.

use crate::complaint::{Complaint, ShowLine};
use crate::failure::Failure;
use crate::inputs::{self, Source};
use crate::options::Common;
use smocurant::{tzif, Status, Table, Window, ZoneTable};

/// Events to be expanded.
pub struct Events {
    /// Where they come from.
    pub sources: Vec<Source>,
    /// How many words of the command line came to nothing.
    pub unreadable: usize,
    zones: Vec<ZoneTable>,
    window: Window,
    show: ShowLine,
}

impl Events {
    /// Finds the files, and reads the tables of the zones.
    pub fn find(common: &Common, window: Window, show: ShowLine) -> Result<Events, Failure> {
        let zones = zones(common, window)?;
        let (sources, unreadable) = inputs::all_sources(&common.events);
        Ok(Events { sources, unreadable, zones, window, show })
    }

    /// The text and the table of an event. A zone that is not the event's gives way to the next.
    pub fn occurrences(&self, source: &Source) -> Result<(Vec<u8>, Table<'static>), Complaint> {
        let text = source.text().map_err(|error| Complaint::new(format!("cannot be read: {error}")))?;
        let mut answer = Err(Status::OtherZone);
        for zone in &self.zones {
            answer = smocurant::expand_to_vec(&text, zone, self.window);
            if answer != Err(Status::OtherZone) {
                break;
            }
        }
        match answer {
            Ok(table) => Ok((text, table)),
            Err(Status::OtherZone) => Err(Complaint::refused(Status::OtherZone, " Name its zone by --zone.")),
            Err(status) => Err(Complaint::of_event(&text, status, self.show)),
        }
    }
}

/// The tables of the zones, in the order they are tried.
fn zones(common: &Common, window: Window) -> Result<Vec<ZoneTable>, Failure> {
    let read = |name: &String| {
        let table = match &common.zone_folder {
            Some(folder) => tzif::in_folder(folder, name, window),
            None => tzif::system(name, window),
        };
        table.map_err(|error| Failure::Wrong(format!("--zone {name}: {error}")))
    };
    let mut tables = common.zones.iter().map(read).collect::<Result<Vec<ZoneTable>, Failure>>()?;
    if common.floating {
        tables.push(ZoneTable::floating());
    }
    Ok(tables)
}
