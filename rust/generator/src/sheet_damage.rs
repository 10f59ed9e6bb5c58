//! Sheets with something wrong in them.

use crate::random::Random;
use crate::sheet_faults::{with_faults, Fault, TRAILER_LENGTH};
use crate::sheets::{Row, RECORD_LENGTH};

/// A sheet of some rows with one fault or more, so that their order shows; some have other damage, alone or beside them, which may also change
/// nothing that matters.
pub fn damaged(rows: &[Row], random: &mut Random) -> Vec<u8> {
    if random.once_in(40) {
        return (0..random.below(60)).map(|_| random.next() as u8).collect();
    }
    let possible: Vec<Fault> = Fault::ALL.into_iter().filter(|fault| fault.fewest_records() <= rows.len()).collect();
    let faults: Vec<Fault> = (0..random.pick(&[0, 1, 1, 1, 2, 2, 3])).map(|_| random.pick(&possible)).collect();
    let mut bytes = with_faults(rows, &faults, random);
    if faults.is_empty() || random.once_in(4) {
        disturb(&mut bytes, random);
    }
    bytes
}

/// Bytes too few or too many at either end, a record too few, or another bit.
fn disturb(bytes: &mut Vec<u8>, random: &mut Random) {
    let place = random.index(bytes.len() + 1);
    match random.below(8) {
        0 => bytes.truncate(place),
        1 => bytes.truncate(TRAILER_LENGTH),
        2 => drop(bytes.drain(..place.min(RECORD_LENGTH))),
        3 => drop(bytes.drain(..RECORD_LENGTH.min(bytes.len()))),
        4 => bytes.push(random.next() as u8),
        _ => {
            if let Some(byte) = bytes.get_mut(place) {
                *byte ^= 1 << random.below(8);
            }
        }
    }
}
