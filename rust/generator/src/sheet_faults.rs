//! The faults for which the reader of sheets refuses, each planted alone or beside others.

use crate::random::Random;
use crate::sheets::{self, Row, RECORD_LENGTH};

/// The bytes of the trailer, and places in it.
pub(crate) const TRAILER_LENGTH: usize = 12;
const RECORD_SIZE: usize = 0;
const VERSION: usize = 2;
const COUNT: usize = 4;
const DISTANCE: usize = 8;

/// Places in a record.
const MARKS: usize = 24;
const ZEROS: usize = 25;

/// A fault. The discriminant is the number that it is refused with; the lowest of several is given.
#[derive(Clone, Copy, Debug, PartialEq, Eq, PartialOrd, Ord)]
#[repr(u32)]
pub enum Fault {
    /// "too short for a trailer"
    TooShort = 34,
    /// "unknown version"
    Version = 35,
    /// "wrong record size"
    RecordSize = 36,
    /// "a distance that isn't 28 times the count or isn't the bytes before the trailer"
    Distance = 37,
    /// "ids not strictly increasing"
    Ids = 38,
    /// "marks outside 0 to 7"
    Marks = 39,
    /// "zeros not zero"
    Zeros = 40,
}

impl Fault {
    /// All of them, in the order in which they are judged.
    pub const ALL: [Fault; 7] =
        [Fault::TooShort, Fault::Version, Fault::RecordSize, Fault::Distance, Fault::Ids, Fault::Marks, Fault::Zeros];

    /// The number that it is refused with.
    pub fn number(self) -> u32 {
        self as u32
    }

    /// A sheet needs this many records to have it.
    pub fn fewest_records(self) -> usize {
        match self {
            Fault::TooShort | Fault::Version | Fault::RecordSize | Fault::Distance => 0,
            Fault::Ids => 2,
            Fault::Marks | Fault::Zeros => 1,
        }
    }

    /// Puts it into the bytes of a sheet.
    fn plant(self, bytes: &mut Vec<u8>, random: &mut Random) {
        let start_of_trailer = bytes.len() - TRAILER_LENGTH;
        let (records, trailer) = bytes.split_at_mut(start_of_trailer);
        match self {
            Fault::TooShort => shorten(bytes, random),
            Fault::Version => put(trailer, VERSION, random.pick(&[0u16, 2, 3, 0x0100, 0x0101, 0xffff]).to_le_bytes()),
            Fault::RecordSize => put(trailer, RECORD_SIZE, random.pick(&[0u16, 27, 29, 56, 0x1c00, 0x011c, 0xffff]).to_le_bytes()),
            Fault::Distance => misplace(bytes, random),
            Fault::Ids => disorder(records, random),
            Fault::Marks => any_record(records, random)[MARKS] = random.pick(&[8, 8, 9, 16, 31, 32, 128, 255]),
            Fault::Zeros => any_record(records, random)[ZEROS + random.index(3)] = random.pick(&[1, 128, 255]),
        }
    }
}

/// A sheet of some rows with these faults, and no others. There are as many rows as each of them needs.
pub fn with_faults(rows: &[Row], faults: &[Fault], random: &mut Random) -> Vec<u8> {
    let mut bytes = sheets::written(rows);
    let mut faults = faults.to_vec();
    // First in the records, then in the trailer, then in the length, so that each finds its place.
    faults.sort_unstable();
    faults.dedup();
    faults.iter().rev().for_each(|fault| fault.plant(&mut bytes, random));
    bytes
}

/// Leaves fewer bytes than a trailer has, of the sheet's start or of its end.
fn shorten(bytes: &mut Vec<u8>, random: &mut Random) {
    let left = if random.once_in(3) { TRAILER_LENGTH - 1 } else { random.index(TRAILER_LENGTH) };
    if random.once_in(2) {
        bytes.truncate(left);
    } else {
        bytes.drain(..bytes.len() - left);
    }
}

/// Makes the count, the distance and the bytes before the trailer disagree.
fn misplace(bytes: &mut Vec<u8>, random: &mut Random) {
    let before = random.pick(&[1, 4, 14, RECORD_LENGTH, 2 * RECORD_LENGTH]);
    let kind = random.below(6);
    if kind <= 1 {
        bytes.splice(..0, vec![random.pick(&[0, 0, 1, 255]); before]);
    }
    let start_of_trailer = bytes.len() - TRAILER_LENGTH;
    let trailer = &mut bytes[start_of_trailer..];
    match kind {
        0 => {}
        // The distance leads to the first of all bytes.
        1 => add(trailer, DISTANCE, before as u32),
        2 => add(trailer, COUNT, random.pick(&[1, u32::MAX, 1 << 8, 1 << 16, 1 << 29])),
        // In 32 bits, 28 times the count stays the same.
        3 => add(trailer, COUNT, random.pick(&[1 << 30, 2 << 30, 3 << 30])),
        4 => add(trailer, DISTANCE, random.pick(&[1, 28, u32::MAX, u32::MAX - 27, 1 << 16, 1 << 31])),
        // A record more than there are bytes for.
        _ => {
            add(trailer, COUNT, 1);
            add(trailer, DISTANCE, RECORD_LENGTH as u32);
        }
    }
}

/// Gives a record an id that is not over the one before it. Some of these would be over it without their sign.
fn disorder(records: &mut [u8], random: &mut Random) {
    let place = random.index(records.len() / RECORD_LENGTH - 1) * RECORD_LENGTH;
    let (one, next) = records[place..].split_at_mut(RECORD_LENGTH);
    let before = i64::from_le_bytes(one[..8].try_into().expect("eight bytes"));
    let below = random.pick(&[0, 0, 1, 256, 1 << 32, i64::MAX]);
    match random.below(8) {
        0 => put(one, 0, i64::MAX.to_le_bytes()),
        1 => put(next, 0, i64::MIN.to_le_bytes()),
        2 if before >= 0 => put(next, 0, (-1 - before).to_le_bytes()),
        _ => put(next, 0, before.saturating_sub(below).to_le_bytes()),
    }
}

fn any_record<'b>(records: &'b mut [u8], random: &mut Random) -> &'b mut [u8] {
    let place = random.index(records.len() / RECORD_LENGTH) * RECORD_LENGTH;
    &mut records[place..place + RECORD_LENGTH]
}

fn put<const N: usize>(bytes: &mut [u8], place: usize, number: [u8; N]) {
    bytes[place..place + N].copy_from_slice(&number);
}

/// Adds to a field of 32 bits.
fn add(trailer: &mut [u8], place: usize, number: u32) {
    let before = u32::from_le_bytes(trailer[place..place + 4].try_into().expect("four bytes"));
    put(trailer, place, before.wrapping_add(number).to_le_bytes());
}
