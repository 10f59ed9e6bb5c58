//! Overrides of single dates.

use crate::dates;
use crate::lengths::Length;
use crate::node::Node;
use crate::random::Random;
use crate::spelling::{duration, either, text, word};

/// What is said of one date.
#[derive(Clone, Debug)]
pub enum OverrideModel {
    Excluded,
    Patch(PatchModel),
}

/// The changes of one date: the outer option is whether there is a patch, `Null` whether it is null.
#[derive(Clone, Debug, Default)]
pub struct PatchModel {
    pub start: Option<i64>,
    pub duration: Option<Length>,
    pub busy: Option<bool>,
    pub all_day: Option<bool>,
    pub title: Option<Option<String>>,
    pub description: Option<Option<String>>,
}

impl OverrideModel {
    /// An override of a date.
    pub fn random(id: i64, random: &mut Random) -> OverrideModel {
        if random.once_in(3) {
            return OverrideModel::Excluded;
        }
        let mut patch = PatchModel::default();
        if random.once_in(3) {
            patch.start = Some((id + random.within(-100_000..=100_000)).clamp(dates::FIRST, dates::END - 1));
        }
        patch.duration = random.once_in(3).then(|| Length::random(random));
        patch.busy = random.once_in(4).then(|| random.once_in(2));
        patch.all_day = random.once_in(4).then(|| random.once_in(2));
        patch.title = random.once_in(3).then(|| random.once_in(2).then(|| text(random)));
        patch.description = random.once_in(4).then(|| random.once_in(2).then(|| text(random)));
        OverrideModel::Patch(patch)
    }

    /// The patch object; a default value may be written as null.
    pub fn node(&self, random: &mut Random) -> Node {
        match self {
            OverrideModel::Excluded => Node::Object(vec![("excluded".to_string(), Node::leaf("true"))]),
            OverrideModel::Patch(patch) => patch.node(random),
        }
    }
}

impl PatchModel {
    fn node(&self, random: &mut Random) -> Node {
        let mut members = Vec::new();
        let mut put = |name: &str, value: Option<Node>| members.extend(value.map(|value| (name.to_string(), value)));
        let spelled = self.duration.map(|length| Node::string(duration(length, random)));
        put("start", self.start.map(|start| Node::string(dates::written(start))));
        put("duration", or_null(spelled, self.duration == Some(Length::default()), random));
        let busy = self.busy.map(|busy| Node::string(if busy { "busy" } else { "free" }));
        put("freeBusyStatus", or_null(busy, self.busy == Some(true), random));
        let all_day = self.all_day.map(|all_day| Node::leaf(if all_day { "true" } else { "false" }));
        put("showWithoutTime", or_null(all_day, self.all_day == Some(false), random));
        put("title", self.title.as_ref().map(text_node));
        put("description", self.description.as_ref().map(text_node));
        either(&mut members, "excluded", Node::leaf(random.pick(&["false", "null"])), true, random);
        either(&mut members, "uid", Node::leaf("[]"), true, random);
        either(&mut members, "privacy", Node::string("secret"), true, random);
        either(&mut members, "locale", Node::string(word(random)), true, random);
        random.shuffle(&mut members);
        Node::Object(members)
    }
}

fn or_null(value: Option<Node>, is_default: bool, random: &mut Random) -> Option<Node> {
    value.map(|value| if is_default && random.once_in(2) { Node::leaf("null") } else { value })
}

fn text_node(text: &Option<String>) -> Node {
    text.as_ref().map_or_else(|| Node::leaf("null"), Node::string)
}
