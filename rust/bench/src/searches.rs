//! Three ways to look up an offset, as plain models over an initial offset and two slices: a scan of the marks, halving, and halving after a
//! look at a hint. Each mark is computed when it is read, as the library does.

use smocurant::ZoneTable;

/// A zone table as the library is given it.
pub struct Numbers<'n> {
    initial_offset: i64,
    instants: &'n [i64],
    offsets: &'n [i64],
}

impl Numbers<'_> {
    pub fn of(zone: &ZoneTable) -> Numbers<'_> {
        Numbers { initial_offset: zone.initial_offset(), instants: zone.instants(), offsets: zone.offsets() }
    }

    /// The offset after so many transitions.
    fn offset_after(&self, count: usize) -> i64 {
        if count == 0 {
            self.initial_offset
        } else {
            self.offsets[count - 1]
        }
    }

    /// "A transition's mark is its instant plus the larger of the offsets before and after"
    fn mark(&self, place: usize) -> i64 {
        self.instants[place] + self.offset_after(place).max(self.offsets[place])
    }
}

/// How many marks are at or before a local time: one mark is read after the other, up to the first that is beyond it.
fn scanned(entries: usize, local: i64, mut mark: impl FnMut(usize) -> i64) -> usize {
    (0..entries).find(|place| local < mark(*place)).unwrap_or(entries)
}

/// The same: each mark that is read leaves at most half of the run.
fn halved(entries: usize, local: i64, mut mark: impl FnMut(usize) -> i64) -> usize {
    let (mut low, mut high) = (0, entries);
    while low < high {
        let middle = low + (high - low) / 2;
        if local < mark(middle) {
            high = middle;
        } else {
            low = middle + 1;
        }
    }
    low
}

/// The same: two marks at most say whether it is still the number that was found last. If it is not, the whole run is halved.
fn hinted(entries: usize, local: i64, hint: usize, mut mark: impl FnMut(usize) -> i64) -> usize {
    let is_begun = hint == 0 || mark(hint - 1) <= local;
    if is_begun && (hint == entries || local < mark(hint)) {
        return hint;
    }
    halved(entries, local, mark)
}

/// A look-up: the offset of a local time. The hint is what was found last; only one of the three uses it.
pub type Search = fn(&Numbers, i64, &mut usize) -> i64;

#[inline(never)]
pub fn scan(numbers: &Numbers, local: i64, _: &mut usize) -> i64 {
    numbers.offset_after(scanned(numbers.instants.len(), local, |place| numbers.mark(place)))
}

#[inline(never)]
pub fn halving(numbers: &Numbers, local: i64, _: &mut usize) -> i64 {
    numbers.offset_after(halved(numbers.instants.len(), local, |place| numbers.mark(place)))
}

#[inline(never)]
pub fn hint_then_halving(numbers: &Numbers, local: i64, hint: &mut usize) -> i64 {
    *hint = hinted(numbers.instants.len(), local, *hint, |place| numbers.mark(place));
    numbers.offset_after(*hint)
}

/// The offsets of local times, one look-up after the other.
pub fn offsets<'r>(search: Search, numbers: &'r Numbers, locals: &'r [i64]) -> impl Iterator<Item = i64> + 'r {
    let mut hint = 0;
    locals.iter().map(move |local| search(numbers, *local, &mut hint))
}

/// How many marks a look-up with a hint reads on the average.
pub fn marks_read(numbers: &Numbers, locals: &[i64]) -> f64 {
    let (mut hint, mut count) = (0, 0u32);
    for local in locals {
        hint = hinted(numbers.instants.len(), *local, hint, |place| {
            count += 1;
            numbers.mark(place)
        });
    }
    f64::from(count) / locals.len() as f64
}
