//! Faults of the properties read: all that there are, and the one that decides.

use crate::answer::Refusal;

/// Something wrong, and the place in the text at which the value begins that it is wrong with.
#[derive(Clone, Copy, Debug, PartialEq, Eq)]
pub struct Fault {
    /// What is wrong.
    pub refusal: Refusal,
    /// The byte place, from 0.
    pub place: usize,
}

impl Fault {
    /// A fault of the whole text.
    pub(crate) fn of_text(refusal: Refusal) -> Fault {
        Fault { refusal, place: 0 }
    }

    /// What comes first decides: "The earliest place decides, then the lowest number"; "The order against the other numbers is that of 6".
    fn order(&self) -> (u32, usize, u32) {
        let number = self.refusal.number();
        if self.refusal.is_wrong_value() {
            (6, self.place, number)
        } else {
            (number, 0, number)
        }
    }
}

/// Collects the faults of an event.
///
/// Reading goes on after a fault, since one that decides may follow. A value that could not be read is replaced by another one, which nobody
/// gets to see: [`Faults::settle`] refuses.
#[derive(Default)]
pub(crate) struct Faults {
    all: Vec<Fault>,
}

impl Faults {
    /// Notes a fault.
    pub fn note(&mut self, place: usize, refusal: Refusal) {
        self.all.push(Fault { refusal, place });
    }

    /// Notes a fault where a condition holds.
    pub fn note_if(&mut self, condition: bool, place: usize, refusal: Refusal) {
        if condition {
            self.note(place, refusal);
        }
    }

    /// The value of a reading, or another in its place.
    pub fn keep<T>(&mut self, place: usize, reading: Result<T, Refusal>, other: T) -> T {
        reading.unwrap_or_else(|refusal| {
            self.note(place, refusal);
            other
        })
    }

    /// What was put together, unless there was a fault.
    pub fn settle<T>(self, value: T) -> Result<T, Fault> {
        self.all.into_iter().min_by_key(Fault::order).map_or(Ok(value), Err)
    }
}

#[cfg(test)]
mod tests {
    use super::*;

    fn first(faults: &[(usize, Refusal)]) -> Option<(usize, Refusal)> {
        let mut all = Faults::default();
        faults.iter().for_each(|(place, refusal)| all.note(*place, *refusal));
        all.settle(()).err().map(|fault| (fault.place, fault.refusal))
    }

    #[test]
    fn the_earliest_place_then_the_lowest_number() {
        assert_eq!(first(&[]), None);
        assert_eq!(first(&[(9, Refusal::WrongType), (3, Refusal::OtherValue)]), Some((3, Refusal::OtherValue)));
        assert_eq!(first(&[(3, Refusal::OtherValue), (9, Refusal::WrongType)]), Some((3, Refusal::OtherValue)));
        assert_eq!(first(&[(3, Refusal::EmptyList), (3, Refusal::Number)]), Some((3, Refusal::Number)));
    }

    #[test]
    fn wrong_values_come_before_seven_to_nine() {
        let others = [(1, Refusal::TooMany), (2, Refusal::Unsupported), (3, Refusal::Conflict)];
        assert_eq!(first(&others), Some((3, Refusal::Conflict)));
        assert_eq!(first(&others[..2]), Some((2, Refusal::Unsupported)));
        for wrong in [Refusal::WrongType, Refusal::OtherValue] {
            assert_eq!(first(&[&others[..], &[(4, wrong)]].concat()), Some((4, wrong)));
        }
    }
}
