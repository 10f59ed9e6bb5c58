//! Events with wrong values: each kind of them, at each property, and often several in one text.
//!
//! What is put in is known to be wrong, and by which number. So the answer of a text is known without reading it: that of the wrong value
//! which stands first.

mod places;
mod values;

use crate::damage;
use crate::model::Model;
use crate::node::{Marked, Node};
use crate::overrides::OverrideModel;
use crate::random::Random;
use crate::rules::RuleModel;
use crate::spelling::text;

/// An event's text with wrong values in it, and what a call on it answers.
#[derive(Clone, Debug)]
pub struct WrongText {
    pub text: Vec<u8>,
    /// One of 20 to 26.
    pub answer: u32,
    /// Where the first wrong value begins.
    pub place: u64,
    /// How many there are.
    pub count: usize,
}

impl WrongText {
    /// The text of a seed.
    pub fn new(seed: u64) -> WrongText {
        let random = &mut Random::new(seed);
        let model = Model::random(random);
        WrongText::of(&model, random)
    }

    /// A text of an event.
    pub(crate) fn of(model: &Model, random: &mut Random) -> WrongText {
        let model = rich(model, random);
        let wide = random.once_in(2);
        loop {
            let mut tree = model.node(random);
            // 7 to 9 beside the wrong values change nothing.
            if random.once_in(3) {
                damage::refuse(&mut tree, random);
            }
            let Marked { text, wrong } = spoiled(tree, random).marked(wide, random);
            // They stand in the order of the text.
            if let Some((answer, place)) = wrong.first() {
                return WrongText { text, answer: *answer, place: *place as u64, count: wrong.len() };
            }
        }
    }
}

/// The event with a title, a rule and an override, so that there is much that can be wrong.
fn rich(model: &Model, random: &mut Random) -> Model {
    let mut rich = model.clone();
    rich.title.get_or_insert_with(|| text(random));
    if rich.rules.is_empty() {
        rich.rules.push(RuleModel::random(rich.start, random));
    }
    if rich.overrides.is_empty() {
        rich.overrides.push((rich.start, OverrideModel::random(rich.start, random)));
    }
    rich
}

/// Puts wrong values into an event: few or many, perhaps none.
fn spoiled(mut tree: Node, random: &mut Random) -> Node {
    let odds = random.pick(&[2, 4, 8]);
    places::event(&mut tree, odds, random);
    tree
}
