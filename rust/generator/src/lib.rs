//! Inputs for tests, all made from a seed: the same number gives the same case on every machine.
//!
//! [`Case::new`] is one call of the library: a text, a zone table, a window, and dates to ask texts for. Its texts are events of every
//! kind, damaged ones, and bytes that are hardly JSON. [`WrongText::new`] is an event with wrong values, whose answer and place are known.
//! [`pairs`] has events that a planner must not be able to tell apart, and [`examples`] those whose dates the documents give.
//! [`Replay::new`] is a log of uploads, the [`sheets`] of a closure calendar and a range of weeks. [`SheetCase::new`] is a sheet to be read
//! back, whole or damaged; [`sheet_faults`] has each thing that can be wrong with one.

mod damage;
pub mod dates;
pub mod examples;
pub mod instants;
mod lengths;
mod model;
mod node;
mod overrides;
pub mod pairs;
mod random;
mod replay;
mod rules;
mod sheet_case;
mod sheet_damage;
pub mod sheet_faults;
pub mod sheets;
mod spelling;
mod strange;
mod tables;
mod wrong;

pub use lengths::Length;
pub use model::Model;
pub use random::Random;
pub use replay::Replay;
pub use sheet_case::{Question, SheetCase};
pub use tables::ZoneNumbers;
pub use wrong::WrongText;

/// One call of the library.
#[derive(Clone, Debug)]
pub struct Case {
    /// The event's text, or what stands in its place.
    pub text: Vec<u8>,
    /// The zone table; perhaps an invalid one.
    pub zone: ZoneNumbers,
    /// The window's two ends; perhaps an invalid one.
    pub window: (i64, i64),
    /// Dates to ask title and description for; some of them may be occurrences.
    pub dates: Vec<i64>,
}

impl Case {
    /// The case of a seed.
    pub fn new(seed: u64) -> Case {
        let random = &mut Random::new(seed);
        let model = Model::random(random);
        let text = match random.below(16) {
            0..=7 => model.text(random),
            8..=10 => damage::in_tree(model.node(random), random),
            11 => damage::in_bytes(model.text(random), random),
            12 => strange::long(&model, random),
            13 => strange::text(random),
            _ => WrongText::of(&model, random).text,
        };
        let zone = ZoneNumbers::random(&model, random);
        Case { text, zone, window: tables::window(&model, random), dates: model.dates(random) }
    }
}

#[cfg(test)]
mod tests {
    use super::*;

    #[test]
    fn a_seed_gives_the_same_case_again() {
        for seed in 0..200 {
            assert_eq!(format!("{:?}", Case::new(seed)), format!("{:?}", Case::new(seed)));
        }
    }
}
