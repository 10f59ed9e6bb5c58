//! The reader of sheets: its refusals 34 to 40, and which of two is given; records by number, and 41.

use expander::{Refusal, Sheet};

const RECORD: usize = 28;

/// The worked sheet of document 01.
const WORKED: [u8; 40] = [
    0xD0, 0xA5, 0x5C, 0x5A, 0, 0, 0, 0, 0x20, 0xEC, 0x5C, 0x5A, 0, 0, 0, 0, 0x30, 0xFA, 0x5C, 0x5A, 0, 0, 0, 0, 0x01, 0, 0, 0, //
    0x1C, 0, 1, 0, 1, 0, 0, 0, 0x1C, 0, 0, 0,
];

/// A sheet with these ids, and nothing else.
fn sheet(ids: &[i64]) -> Vec<u8> {
    let mut bytes: Vec<u8> = ids.iter().flat_map(|id| id.to_le_bytes().into_iter().chain([0; 20])).collect();
    let distance = bytes.len() as u32;
    bytes.extend([0x1C, 0, 1, 0]);
    bytes.extend((ids.len() as u32).to_le_bytes().into_iter().chain(distance.to_le_bytes()));
    bytes
}

/// The answer to a sheet with bytes put at places; a place at or over 0 is counted from the first record, a negative one from the end.
fn answer(sheet: &[u8], changes: &[(isize, u8)]) -> u32 {
    let mut bytes = sheet.to_vec();
    for (place, byte) in changes {
        let place = if *place < 0 { bytes.len() - place.unsigned_abs() } else { place.unsigned_abs() };
        bytes[place] = *byte;
    }
    let number = Sheet::read(&bytes).map_or_else(Refusal::number, |_| 0);
    assert_eq!(expander::read(&bytes).0, number);
    if number != 0 {
        refused(&bytes, number);
    }
    number
}

/// A refused sheet is refused in every call, with a record's number and with one over the count. All numbers are 0, and what is lent stays.
fn refused(bytes: &[u8], number: u32) {
    assert_eq!(expander::read(bytes), (number, 0, 0));
    for record in [0, u64::MAX] {
        assert_eq!(expander::record(bytes, record), (number, 0, 0, 0, 0));
        assert_eq!(Lent::new([3; 4]).after(bytes, record), ((number, 0), Lent::new([3; 4])));
    }
}

/// Lent slices of some lengths.
#[derive(Debug, PartialEq, Eq)]
struct Lent {
    ids: Vec<i64>,
    starts: Vec<i64>,
    ends: Vec<i64>,
    marks: Vec<u32>,
}

impl Lent {
    /// Sevens.
    fn new([ids, starts, ends, marks]: [usize; 4]) -> Lent {
        Lent { ids: vec![7; ids], starts: vec![7; starts], ends: vec![7; ends], marks: vec![7; marks] }
    }

    /// The answer of a call, and what it leaves.
    fn after(mut self, sheet: &[u8], first: u64) -> ((u32, u64), Lent) {
        (expander::records(sheet, first, &mut self.ids, &mut self.starts, &mut self.ends, &mut self.marks), self)
    }
}

#[test]
fn the_worked_sheet() {
    let records: Vec<(i64, i64, i64, u8)> =
        Sheet::read(&WORKED).unwrap().records().map(|record| (record.id, record.start, record.end, record.marks)).collect();
    // 2018-01-15T13:00:00 in New York, for an hour.
    assert_eq!(records, [(1_516_021_200, 1_516_039_200, 1_516_042_800, 1)]);
    assert_eq!(Sheet::read(&WORKED[28..]), Err(Refusal::SheetDistance));
    assert_eq!(Sheet::read(&sheet(&[])).unwrap().records().count(), 0);
    assert_eq!(
        [expander::read(&WORKED), expander::read(&sheet(&[])), expander::read(&sheet(&[-1, 0, 1]))],
        [(0, 1, 1), (0, 1, 0), (0, 1, 3)]
    );
}

#[test]
fn too_short() {
    for length in 0..12 {
        assert_eq!(answer(&sheet(&[])[..length], &[]), 34, "{length}");
    }
}

#[test]
fn versions_and_record_sizes_are_whole_fields() {
    for (place, byte) in [(-10, 0), (-10, 2), (-10, 3), (-9, 1)] {
        assert_eq!(answer(&WORKED, &[(place, byte)]), 35);
    }
    for (place, byte) in [(-12, 27), (-12, 29), (-12, 0), (-11, 1)] {
        assert_eq!(answer(&WORKED, &[(place, byte)]), 36);
        assert_eq!(answer(&WORKED, &[(place, byte), (-10, 9)]), 35);
    }
}

#[test]
fn distances() {
    // The count, and the distance.
    for place in -8..0 {
        assert_eq!(answer(&WORKED, &[(place, 0x40)]), 37, "{place}");
    }
    // 28 times 2^30 and 28 times 3 * 2^30 are multiples of 2^32.
    for top in [0x40, 0x80, 0xC0] {
        assert_eq!(answer(&WORKED, &[(-5, top)]), 37);
        assert_eq!(answer(&sheet(&[]), &[(-5, top)]), 37);
    }
    let before = |bytes: usize| [vec![0; bytes], WORKED.to_vec()].concat();
    assert_eq!([1, 27, 28, 56].map(|bytes| answer(&before(bytes), &[])), [37; 4]);
    // A count and a distance that go together, and bytes that do not.
    assert_eq!(answer(&WORKED, &[(-8, 2), (-4, 56)]), 37);
    assert_eq!(answer(&WORKED, &[(-8, 0), (-4, 0)]), 37);
}

#[test]
fn ids() {
    for ids in [[0, 0], [1, 0], [i64::MAX, i64::MIN], [0, -1]] {
        assert_eq!(answer(&sheet(&ids), &[]), 38, "{ids:?}");
    }
    for ids in [[-1, 0], [i64::MIN, i64::MAX], [255, 256]] {
        assert_eq!(answer(&sheet(&ids), &[]), 0, "{ids:?}");
    }
    assert_eq!(answer(&sheet(&[1, 2, 3, 3]), &[]), 38);
}

#[test]
fn marks_and_zeros() {
    assert_eq!((0..=7).map(|marks| answer(&WORKED, &[(24, marks)])).collect::<Vec<_>>(), [0; 8]);
    assert_eq!([8, 16, 32, 255].map(|marks| answer(&WORKED, &[(24, marks)])), [39; 4]);
    assert_eq!([25, 26, 27].map(|place| answer(&WORKED, &[(place, 1)])), [40; 3]);
}

/// Each number is judged over all records before the next.
#[test]
fn the_whole_sheet_before_the_next_number() {
    let three = sheet(&[1, 2, 3]);
    let record = |number: usize, place: usize| (number * RECORD + place) as isize;
    assert_eq!(answer(&three, &[(record(0, 25), 1), (record(2, 24), 8)]), 39);
    assert_eq!(answer(&three, &[(record(0, 24), 8), (record(2, 0), 2)]), 38);
    assert_eq!(answer(&three, &[(record(0, 25), 1), (record(2, 0), 2)]), 38);
    assert_eq!(answer(&three, &[(record(0, 25), 1), (record(2, 0), 2), (-8, 9)]), 37);
    assert_eq!(answer(&three, &[(-8, 9), (-12, 9)]), 36);
}

/// Three records that differ in everything: id -1, then 0, then 1.
fn three() -> Vec<u8> {
    let mut bytes: Vec<u8> = Vec::new();
    for (id, start, end, marks) in [(-1i64, 10i64, -20i64, 0), (0, i64::MIN, i64::MAX, 7), (1, 12, 22, 5)] {
        bytes.extend([id, start, end].into_iter().flat_map(i64::to_le_bytes).chain([marks, 0, 0, 0]));
    }
    bytes.extend([0x1C, 0, 1, 0, 3, 0, 0, 0, 84, 0, 0, 0]);
    bytes
}

#[test]
fn records_by_number() {
    assert_eq!(expander::record(&WORKED, 0), (0, 1_516_021_200, 1_516_039_200, 1_516_042_800, 1));
    assert_eq!(expander::record(&three(), 0), (0, -1, 10, -20, 0));
    assert_eq!(expander::record(&three(), 1), (0, 0, i64::MIN, i64::MAX, 7));
    assert_eq!(expander::record(&three(), 2), (0, 1, 12, 22, 5));
}

/// "A record number at or over the count is 41", also where a number of 32 bits, or 28 times the number in 64, would be below it.
#[test]
fn no_such_record() {
    for number in [3, 4, 1 << 30, (1 << 32) - 1, 1 << 32, (1 << 32) + 2, 1 << 62, (1 << 62) + 1, 1 << 63, u64::MAX] {
        assert_eq!(expander::record(&three(), number), (41, 0, 0, 0, 0), "{number}");
        for room in [[3; 4], [0; 4], [1, 2, 3, 0]] {
            assert_eq!(Lent::new(room).after(&three(), number), ((41, 0), Lent::new(room)), "{number} {room:?}");
        }
    }
    assert_eq!(expander::record(&sheet(&[]), 0), (41, 0, 0, 0, 0));
    assert_eq!(Lent::new([0; 4]).after(&sheet(&[]), 0), ((41, 0), Lent::new([0; 4])));
}

#[test]
fn runs_of_records() {
    let (ids, starts, ends, marks) = (vec![-1, 0, 1, 7], vec![10, i64::MIN, 12, 7], vec![-20, i64::MAX, 22, 7], vec![0, 7, 5, 7]);
    assert_eq!(Lent::new([4; 4]).after(&three(), 0), ((0, 3), Lent { ids, starts, ends, marks }));
    let (ids, starts, ends, marks) = (vec![0, 1, 7], vec![i64::MIN, 12, 7], vec![i64::MAX, 22, 7], vec![7, 5, 7]);
    assert_eq!(Lent::new([3; 4]).after(&three(), 1), ((0, 2), Lent { ids, starts, ends, marks }));
}

/// The shortest slice limits. With no room the answer is 0, and so is the count.
#[test]
fn room_for_records() {
    for short in 0..4 {
        let mut room = [3; 4];
        room[short] = 2;
        let (answer, lent) = Lent::new(room).after(&three(), 0);
        assert_eq!((answer, &lent.ids[..2], &lent.starts[..2]), ((0, 2), &[-1, 0][..], &[10, i64::MIN][..]), "{room:?}");
        assert_eq!((&lent.ends[..2], &lent.marks[..2]), (&[-20, i64::MAX][..], &[0, 7][..]), "{room:?}");
        let after = [lent.ids.get(2), lent.starts.get(2), lent.ends.get(2)];
        assert!(after.into_iter().flatten().all(|element| *element == 7) && lent.marks.get(2).is_none_or(|marks| *marks == 7), "{room:?}");
        room[short] = 0;
        assert_eq!(Lent::new(room).after(&three(), 2), ((0, 0), Lent::new(room)));
    }
}
