//! Sheets to be read back, and what is asked of them.

use crate::random::Random;
use crate::sheet_damage;
use crate::sheets::{self, Row};

/// One sheet, and questions about it. Half of the sheets are whole.
#[derive(Clone, Debug)]
pub struct SheetCase {
    /// The rows that the sheet was written from.
    pub rows: Vec<Row>,
    /// The sheet's bytes; perhaps damaged ones.
    pub sheet: Vec<u8>,
    pub questions: Vec<Question>,
}

/// A question for records.
#[derive(Clone, Copy, Debug)]
pub struct Question {
    /// The number of a record, or of the first of a run; perhaps one that the sheet does not have.
    pub number: u64,
    /// The lengths of the slices that are lent for ids, starts, ends and marks.
    pub rooms: [usize; 4],
}

impl SheetCase {
    /// The case of a seed.
    pub fn new(seed: u64) -> SheetCase {
        let random = &mut Random::new(seed);
        let count = if random.once_in(40) { 300 } else { random.pick(&[0, 1, 1, 2, 2, 3, 5, 20]) };
        let rows = sheets::any_rows(count, random);
        let sheet = if random.once_in(2) { sheet_damage::damaged(&rows, random) } else { sheets::written(&rows) };
        let questions = (0..4).map(|_| Question::random(count, random)).collect();
        SheetCase { rows, sheet, questions }
    }
}

impl Question {
    /// A question for a sheet of so many records.
    fn random(count: usize, random: &mut Random) -> Question {
        let number = number(count as u64, random);
        let rest = (count as u64).saturating_sub(number) as usize;
        let some = random.index(rest + 1);
        let room = random.pick(&[rest, rest, rest + 1, rest.saturating_sub(1), some, 0]);
        Question { number, rooms: [(); 4].map(|()| room + random.pick(&[0, 0, 0, 1, 7])) }
    }
}

/// A number below a count, beside it, or far over it: then often one that is below it in 32 bits, or as a place of bytes in 32 or 64 bits.
fn number(count: u64, random: &mut Random) -> u64 {
    let below = random.below(count + 1);
    match random.below(10) {
        0 => 0,
        1..=4 => below,
        5..=6 => count.saturating_add_signed(random.within(-2..=2)),
        7 => random.pick(&[1 << 30, 1 << 31, 1 << 32, 3 << 32, 1 << 62, 1 << 63, 3 << 62]) + below,
        8 => u64::MAX - below,
        _ => random.next(),
    }
}

#[cfg(test)]
mod tests {
    use super::*;

    #[test]
    fn a_seed_gives_the_same_case_again() {
        for seed in 0..200 {
            assert_eq!(format!("{:?}", SheetCase::new(seed)), format!("{:?}", SheetCase::new(seed)));
        }
    }
}
