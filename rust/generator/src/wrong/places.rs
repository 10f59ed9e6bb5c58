//! Where wrong values are put: events, rules, weekdays with numbers, overrides and their names.

use super::values::{date_name, wrong, Kind};
use crate::node::Node;
use crate::random::Random;

type Members = Vec<(String, Node)>;

#[rustfmt::skip]
const EVENT: [(&str, Kind); 13] = [
    ("uid", Kind::Name), ("updated", Kind::Updated), ("start", Kind::DateTime), ("timeZone", Kind::Zone), ("privacy", Kind::Plain),
    ("duration", Kind::Duration), ("freeBusyStatus", Kind::Word), ("showWithoutTime", Kind::Boolean), ("title", Kind::Text),
    ("description", Kind::Text), ("recurrenceRules", Kind::List), ("excludedRecurrenceRules", Kind::List),
    ("recurrenceOverrides", Kind::Object),
];
#[rustfmt::skip]
const RULE: [(&str, Kind); 12] = [
    ("@type", Kind::Word), ("frequency", Kind::Word), ("interval", Kind::Count), ("count", Kind::Count), ("until", Kind::Until),
    ("firstDayOfWeek", Kind::Word), ("rscale", Kind::Plain), ("skip", Kind::Word), ("byDay", Kind::ByList), ("byMonthDay", Kind::ByList),
    ("byMonth", Kind::ByList), ("bySetPosition", Kind::ByList),
];
const DAY: [(&str, Kind); 3] = [("@type", Kind::Word), ("day", Kind::Word), ("nthOfPeriod", Kind::Place(53))];
#[rustfmt::skip]
const PATCH: [(&str, Kind); 7] = [
    ("start", Kind::DateTime), ("duration", Kind::Duration), ("freeBusyStatus", Kind::Word), ("showWithoutTime", Kind::Boolean),
    ("title", Kind::Text), ("description", Kind::Text), ("excluded", Kind::Boolean),
];

/// Goes through an event, and makes something of each of its parts wrong once in so many times.
pub fn event(tree: &mut Node, odds: u64, random: &mut Random) {
    let Node::Object(members) = tree else { return };
    for (name, value) in members.iter_mut() {
        match name.as_str() {
            "recurrenceRules" | "excludedRecurrenceRules" => entries(value, Kind::Object, odds, random, rule),
            "recurrenceOverrides" => overrides(value, odds, random),
            _ => {}
        }
    }
    if random.once_in(odds) {
        put(members, random.pick(&EVENT), random);
    }
}

/// The entries of a list: one of another kind, or what is in them.
fn entries(list: &mut Node, kind: Kind, odds: u64, random: &mut Random, go_on: fn(&mut Node, u64, &mut Random)) {
    let Node::Array(entries) = list else { return };
    for entry in entries {
        if random.once_in(4 * odds) {
            *entry = wrong(kind, random);
        } else {
            go_on(entry, odds, random);
        }
    }
}

fn rule(node: &mut Node, odds: u64, random: &mut Random) {
    let Node::Object(members) = node else { return };
    for (name, value) in members.iter_mut() {
        match name.as_str() {
            "byDay" => entries(value, Kind::Object, odds, random, day),
            "byMonthDay" => entries(value, Kind::Place(31), odds, random, nothing),
            "byMonth" => entries(value, Kind::Month, odds, random, nothing),
            "bySetPosition" => entries(value, Kind::Place(366), odds, random, nothing),
            _ => {}
        }
    }
    if random.once_in(odds) {
        put(members, random.pick(&RULE), random);
    }
    if random.once_in(4 * odds) {
        miss(node, &["@type", "frequency"], random);
    }
}

fn day(node: &mut Node, odds: u64, random: &mut Random) {
    let Node::Object(members) = node else { return };
    if random.once_in(odds) {
        put(members, random.pick(&DAY), random);
    }
    if random.once_in(4 * odds) {
        miss(node, &["@type", "day"], random);
    }
}

fn nothing(_: &mut Node, _: u64, _: &mut Random) {}

fn overrides(node: &mut Node, odds: u64, random: &mut Random) {
    let Node::Object(members) = node else { return };
    for place in 0..members.len() {
        match &mut members[place].1 {
            patch if random.once_in(4 * odds) => *patch = wrong(Kind::Object, random),
            Node::Object(patch) if random.once_in(odds) => put_patch(patch, random),
            _ => {}
        }
        if random.once_in(2 * odds) {
            misname(members, place, random);
        }
    }
}

/// Gives a member a name that is no date-time, unless another has it.
fn misname(members: &mut Members, place: usize, random: &mut Random) {
    let name = date_name(random);
    if members.iter().all(|(other, _)| *other != name) {
        let value = std::mem::replace(&mut members[place].1, Node::leaf(""));
        members[place] = (name, Node::Misnamed(21, Box::new(value)));
    }
}

/// A wrong value of a property, at any place of its object.
fn put(members: &mut Members, (name, kind): (&str, Kind), random: &mut Random) {
    let value = wrong(kind, random);
    members.retain(|(own, _)| own != name);
    members.insert(random.index(members.len() + 1), (name.to_string(), value));
}

/// A wrong value in a patch, where null is right for all but `start`.
fn put_patch(patch: &mut Members, random: &mut Random) {
    let (name, kind) = random.pick(&PATCH);
    put(patch, (name, kind), random);
    while name != "start" && patch.iter().any(|(own, value)| own == name && is_null(value)) {
        put(patch, (name, kind), random);
    }
}

fn is_null(value: &Node) -> bool {
    matches!(value, Node::Wrong(_, value) if matches!(&**value, Node::Leaf(text) if text == "null"))
}

/// Takes a member out of an object that has to have it.
fn miss(node: &mut Node, names: &[&str], random: &mut Random) {
    let missing = random.pick(names);
    let Node::Object(members) = node else { return };
    members.retain(|(own, _)| own != missing);
    *node = Node::Wrong(26, Box::new(Node::Object(std::mem::take(members))));
}
