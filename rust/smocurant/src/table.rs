//! The table of occurrences.

use crate::calls::{done, expand_to_vec, place};
use crate::raw;
use crate::record::{Record, Records};
use crate::status::Status;
use crate::window::Window;
use crate::zone::ZoneTable;
use std::borrow::Cow;
use std::sync::OnceLock;

/// The occurrences of an event in a window, as the bytes of a sheet: those that the library has written into a buffer, or those that it has
/// judged. It borrows them or owns them.
///
/// How a sheet is laid out is the library's own matter: it writes it, and it reads it back.
///
/// ```
/// use smocurant::{expand_to_vec, Status, Table, Window, ZoneTable};
///
/// let event = br#"{"@type": "Event", "uid": "1", "updated": "2024-01-01T00:00:00Z", "start": "2024-02-29T00:00:00"}"#;
/// let bytes = expand_to_vec(event, &ZoneTable::floating(), Window::WIDEST)?.into_bytes();
/// // Stored, and read again by whoever plans.
/// let table = Table::read(&bytes)?;
/// assert_eq!(table.records().map(|record| record.id).collect::<Vec<_>>(), [1_709_164_800]);
/// assert_eq!(Table::read(&bytes[1..]), Err(Status::SheetDistance));
/// # Ok::<(), Status>(())
/// ```
#[derive(Clone, Debug)]
pub struct Table<'b> {
    bytes: Cow<'b, [u8]>,
    /// The number of records, once it has been asked for.
    count: OnceLock<usize>,
}

impl<'b> Table<'b> {
    /// The bytes that a call has written. They are counted when somebody asks: to go through them again would make each call slower.
    pub(crate) fn written(bytes: impl Into<Cow<'b, [u8]>>) -> Table<'b> {
        Table { bytes: bytes.into(), count: OnceLock::new() }
    }

    /// The table that some bytes are. The library judges all of them, and refuses with [`Status::SheetTooShort`] to [`Status::SheetZeros`]: what
    /// is taken is what it would write for these records.
    pub fn read(bytes: impl Into<Cow<'b, [u8]>>) -> Result<Table<'b>, Status> {
        let bytes = bytes.into();
        let count = count(&bytes)?;
        Ok(Table { bytes, count: OnceLock::from(count) })
    }

    /// A table without records.
    ///
    /// ```
    /// use smocurant::Table;
    ///
    /// assert_eq!((Table::empty().len(), Table::empty().records().next()), (0, None));
    /// ```
    pub fn empty() -> Table<'static> {
        Table::written(empty_sheet())
    }

    /// The bytes of the table, to be sent on.
    pub fn as_bytes(&self) -> &[u8] {
        &self.bytes
    }

    /// The bytes of the table, owned.
    pub fn into_bytes(self) -> Vec<u8> {
        self.bytes.into_owned()
    }

    /// The number of records. A table that was read knows it. One that a call has written is gone through once, when it is first asked.
    pub fn len(&self) -> usize {
        *self.count.get_or_init(|| count(&self.bytes).expect(OWN))
    }

    /// Are there no records?
    pub fn is_empty(&self) -> bool {
        self.len() == 0
    }

    /// The records, by id. One call of the library hands out all of them.
    pub fn records(&self) -> Records {
        Records::of_sheet(&self.bytes, self.len()).expect(OWN)
    }

    /// The record of a number, counted from 0, if there is one. The library judges the whole table each time, so [`records`](Table::records) is the
    /// way to go through it.
    ///
    /// ```
    /// use smocurant::{expand_to_vec, Status, Window, ZoneTable};
    ///
    /// let event = br#"{"@type": "Event", "uid": "1", "updated": "2024-01-01T00:00:00Z", "start": "2024-02-29T00:00:00"}"#;
    /// let table = expand_to_vec(event, &ZoneTable::floating(), Window::WIDEST)?;
    /// assert_eq!(table.get(0).map(|record| record.id), Some(1_709_164_800));
    /// assert_eq!(table.get(1), None);
    /// # Ok::<(), Status>(())
    /// ```
    pub fn get(&self, number: usize) -> Option<Record> {
        match Record::of_sheet(&self.bytes, number) {
            Err(Status::RecordNumber) => None,
            record => Some(record.expect(OWN)),
        }
    }
}

/// Why a table's bytes are never refused.
const OWN: &str = "the library reads what it has written or judged";

/// The number of a sheet's records, if nothing is wrong with it.
fn count(sheet: &[u8]) -> Result<usize, Status> {
    let (answer, _, count) = raw::read(sheet);
    done(answer).map(|()| place(count))
}

/// A sheet without records, which the library writes once: that of a secret event, of which no window shows anything.
pub(crate) fn empty_sheet() -> &'static [u8] {
    const SECRET: &[u8] =
        br#"{"@type":"Event","uid":"1","updated":"2026-01-01T00:00:00Z","start":"2026-01-01T00:00:00","privacy":"secret"}"#;
    static SHEET: OnceLock<Vec<u8>> = OnceLock::new();
    SHEET.get_or_init(|| expand_to_vec(SECRET, &ZoneTable::floating(), Window::WIDEST).expect("the event is accepted").into_bytes())
}

/// Tables with the same bytes are equal, whether or not they have been counted.
impl PartialEq for Table<'_> {
    fn eq(&self, other: &Table) -> bool {
        self.bytes == other.bytes
    }
}

impl Eq for Table<'_> {}

impl AsRef<[u8]> for Table<'_> {
    fn as_ref(&self) -> &[u8] {
        &self.bytes
    }
}

impl IntoIterator for &Table<'_> {
    type Item = Record;
    type IntoIter = Records;

    fn into_iter(self) -> Records {
        self.records()
    }
}

#[cfg(test)]
mod tests {
    use super::*;

    /// The worked sheet of document 01, and the sheet without records.
    const WORKED: [u8; 40] = [
        0xd0, 0xa5, 0x5c, 0x5a, 0, 0, 0, 0, 0x20, 0xec, 0x5c, 0x5a, 0, 0, 0, 0, 0x30, 0xfa, 0x5c, 0x5a, 0, 0, 0, 0, 0x01, 0, 0, 0, //
        0x1c, 0, 1, 0, 1, 0, 0, 0, 0x1c, 0, 0, 0,
    ];
    const EMPTY: [u8; 12] = [0x1c, 0, 1, 0, 0, 0, 0, 0, 0, 0, 0, 0];

    #[test]
    fn the_worked_sheet() {
        let table = Table::read(&WORKED[..]).unwrap();
        let (id, start, end) = (1_516_021_200, 1_516_039_200, 1_516_042_800);
        let record = Record { id, start, end, busy: true, all_day: false, floating: false };
        assert_eq!((table.len(), table.get(0), table.get(1), table.get(usize::MAX)), (1, Some(record), None, None));
        assert_eq!(table.records().collect::<Vec<_>>(), [record]);
    }

    #[test]
    fn only_sheets_are_read() {
        let damaged = |place: usize| {
            let mut bytes = WORKED.to_vec();
            bytes[place] ^= 8;
            Table::read(bytes).map(|_| place)
        };
        let places = [30, 28, 32, 36, 24, 25];
        let (version, size, distance) = (Status::SheetVersion, Status::SheetRecordSize, Status::SheetDistance);
        assert_eq!(places.map(damaged), [version, size, distance, distance, Status::SheetMarks, Status::SheetZeros].map(Err));
        let twice = [&WORKED[..28], &WORKED[..28], &[0x1c, 0, 1, 0, 2, 0, 0, 0, 0x38, 0, 0, 0]].concat();
        assert_eq!(Table::read(twice), Err(Status::SheetIds));
        for length in 0..WORKED.len() {
            let refused = Table::read(&WORKED[..length]).unwrap_err();
            assert_eq!(refused == Status::SheetTooShort, length < EMPTY.len(), "{length} bytes");
        }
    }

    #[test]
    fn a_table_without_records() {
        assert_eq!(Table::empty(), Table::read(&EMPTY[..]).unwrap());
        let table = Table::empty();
        assert!(table.is_empty() && table.records().len() == 0 && table.get(0).is_none());
    }

    /// A table that has been counted is equal to one that has not, and so is a copy.
    #[test]
    fn counted_when_asked() {
        let [one, other] = [(); 2].map(|()| Table::written(&WORKED[..]));
        assert_eq!(one.len(), 1);
        assert!(one == other && other.count.get().is_none() && one.clone().count.get() == Some(&1));
    }

    #[test]
    fn records_from_both_ends() {
        let events = generator::examples::recurring("2026-01-01T00:00:00", r#""frequency": "daily", "count": 5"#);
        let table = expand_to_vec(events.as_bytes(), &ZoneTable::floating(), Window::WIDEST).unwrap();
        let (mut records, get) = (table.records(), |number| table.get(number));
        assert_eq!((records.len(), records.next(), records.next_back()), (5, get(0), get(4)));
        assert_eq!((records.len(), records.nth(1), records.next_back(), records.next()), (3, get(2), get(3), None));
        assert!(table.records().rev().map(|record| record.id).is_sorted_by(|one, next| one > next));
    }
}
