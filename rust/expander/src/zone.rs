//! "The zone table is a run of entries, each an instant and an offset from then on, with a name and an initial offset."

use crate::answer::Refusal;

const MOST_ENTRIES: usize = 1_024;
const FURTHEST_INSTANT: i64 = 1 << 40;
const LARGEST_OFFSET: i64 = 86_399;

/// A valid zone table, with what a look-up needs of it.
#[derive(Clone, Debug)]
pub struct Zone<'n> {
    name: &'n [u8],
    initial_offset: i64,
    /// Marks and the offsets from them on.
    marks: Vec<(i64, i64)>,
}

impl<'n> Zone<'n> {
    /// Judges a table; refuses with 10.
    pub fn new(name: &'n [u8], initial_offset: i64, instants: &[i64], offsets: &[i64]) -> Result<Zone<'n>, Refusal> {
        let is_offset = |offset: &i64| (-LARGEST_OFFSET..=LARGEST_OFFSET).contains(offset);
        let is_instant = |instant: &i64| (-FURTHEST_INSTANT..=FURTHEST_INSTANT).contains(instant);
        let is_sized = instants.len() == offsets.len() && instants.len() <= MOST_ENTRIES;
        let is_in_range = is_offset(&initial_offset) && offsets.iter().all(is_offset) && instants.iter().all(is_instant);
        if !is_sized || !is_in_range || !increases(instants) {
            return Err(Refusal::ZoneTable);
        }
        // "A transition's mark is its instant plus the larger of the offsets before and after"
        let offsets_before = std::iter::once(&initial_offset).chain(offsets);
        let marks: Vec<i64> =
            instants.iter().zip(offsets_before.zip(offsets)).map(|(instant, (before, after))| instant + before.max(after)).collect();
        if !increases(&marks) {
            return Err(Refusal::ZoneTable);
        }
        Ok(Zone { name, initial_offset, marks: marks.into_iter().zip(offsets.iter().copied()).collect() })
    }

    /// The table's name.
    pub fn name(&self) -> &'n [u8] {
        self.name
    }

    /// "that after the last transition whose mark is at or before it, else the initial one"
    pub fn offset(&self, local: i64) -> i64 {
        let behind = self.marks.partition_point(|(mark, _)| *mark <= local);
        behind.checked_sub(1).map_or(self.initial_offset, |last| self.marks[last].1)
    }
}

fn increases(numbers: &[i64]) -> bool {
    numbers.windows(2).all(|pair| pair[0] < pair[1])
}
