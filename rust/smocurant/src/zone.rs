//! Zone tables.

/// One entry of a zone table: the offset from an instant on, both in seconds.
#[derive(Clone, Copy, Debug, PartialEq, Eq, Hash)]
#[repr(C)]
pub struct Transition {
    /// Seconds from 1970-01-01T00:00:00Z.
    pub instant: i64,
    /// Seconds that local time is ahead of UTC from then on.
    pub offset: i64,
}

/// A time zone: its name, and when its offset from UTC changes. Whether a table is valid is judged by the library, at each call.
///
/// Starts are looked up in it, and starts moved by the weeks and days of their length: up to 366 days later. It has to go on as far.
#[derive(Clone, Debug, PartialEq, Eq, Hash)]
pub struct ZoneTable {
    name: String,
    initial_offset: i64,
    instants: Vec<i64>,
    offsets: Vec<i64>,
}

impl ZoneTable {
    /// At most this many entries are valid.
    pub const MOST_ENTRIES: usize = 1_024;

    /// The table of some entries.
    pub fn new(name: impl Into<String>, initial_offset: i64, entries: impl IntoIterator<Item = Transition>) -> ZoneTable {
        let (instants, offsets) = entries.into_iter().map(|entry| (entry.instant, entry.offset)).unzip();
        ZoneTable { name: name.into(), initial_offset, instants, offsets }
    }

    /// A zone whose offset never changes.
    pub fn fixed(name: impl Into<String>, offset: i64) -> ZoneTable {
        ZoneTable::new(name, offset, [])
    }

    /// A table for floating events, which have no zone: its name is empty, and that of no event.
    pub fn floating() -> ZoneTable {
        ZoneTable::fixed("", 0)
    }

    /// The name, which that of the event must be.
    pub fn name(&self) -> &str {
        &self.name
    }

    /// The offset before the first entry.
    pub fn initial_offset(&self) -> i64 {
        self.initial_offset
    }

    /// The instants of the entries.
    pub fn instants(&self) -> &[i64] {
        &self.instants
    }

    /// The offsets of the entries.
    pub fn offsets(&self) -> &[i64] {
        &self.offsets
    }

    /// The entries.
    pub fn entries(&self) -> impl Iterator<Item = Transition> + '_ {
        self.instants.iter().zip(&self.offsets).map(|(&instant, &offset)| Transition { instant, offset })
    }
}
