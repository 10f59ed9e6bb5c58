//! What an event says, apart from how it is written.

use crate::dates::{self, DAY, END, FIRST};
use crate::lengths::Length;
use crate::node::Node;
use crate::overrides::OverrideModel;
use crate::random::Random;
use crate::rules::RuleModel;
use crate::spelling::{duration, either, text, word};

/// An event that the library accepts.
#[derive(Clone, Debug)]
pub struct Model {
    pub start: i64,
    pub zone: Option<String>,
    /// The word in the text; unknown ones mean private.
    pub privacy: String,
    pub duration: Length,
    pub busy: bool,
    pub all_day: bool,
    pub title: Option<String>,
    pub description: Option<String>,
    pub rules: Vec<RuleModel>,
    pub excluded_rules: Vec<RuleModel>,
    pub overrides: Vec<(i64, OverrideModel)>,
}

impl Model {
    /// Any event.
    pub fn random(random: &mut Random) -> Model {
        let start = start(random);
        let rules = random.below(4).saturating_sub(1);
        let excluded = random.below(6).saturating_sub(4);
        Model {
            start,
            zone: (!random.once_in(4)).then(|| random.pick(&["Europe/London", "Z", "America/New_York", "ä"]).to_string()),
            privacy: random.pick(&["public", "public", "public", "private", "secret", "confidential", ""]).to_string(),
            duration: Length::random(random),
            busy: !random.once_in(3),
            all_day: random.once_in(3),
            title: random.once_in(2).then(|| text(random)),
            description: random.once_in(3).then(|| text(random)),
            rules: (0..rules).map(|_| RuleModel::random(start, random)).collect(),
            excluded_rules: (0..excluded).map(|_| RuleModel::random(start, random)).collect(),
            overrides: overrides(start, random),
        }
    }

    /// Has it few occurrences, even in the widest window?
    pub fn is_short(&self) -> bool {
        self.rules.iter().all(|rule| rule.is_short(self.start))
    }

    /// A local time that is turned to UTC: the start of an occurrence, or that start moved by the days of its length.
    pub(crate) fn turned_to_utc(&self, random: &mut Random) -> i64 {
        let (start, length) = match self.overrides.first() {
            Some((id, OverrideModel::Patch(patch))) if random.once_in(2) => {
                (patch.start.unwrap_or(*id), patch.duration.unwrap_or(self.duration))
            }
            _ => (self.start, self.duration),
        };
        if random.once_in(2) {
            start
        } else {
            length.moves(start)
        }
    }

    /// The event as a text, in one of its spellings.
    pub fn text(&self, random: &mut Random) -> Vec<u8> {
        self.node(random).text(random)
    }

    /// The event as JSON, with members in any order.
    pub(crate) fn node(&self, random: &mut Random) -> Node {
        let mut members = vec![
            ("@type".to_string(), Node::string("Event")),
            ("uid".to_string(), Node::string(format!("u{}", random.below(1000)))),
            ("updated".to_string(), Node::string(random.pick(&["2024-01-01T00:00:00Z", "0000-02-29T23:59:59.001Z"]))),
            ("start".to_string(), Node::string(dates::written(self.start))),
        ];
        self.put_details(&mut members, random);
        self.put_recurrence(&mut members, random);
        for name in ["locations", "recurrenceRule", "excluded", "x"] {
            if random.once_in(8) {
                members.push((name.to_string(), ignored(2, random)));
            }
        }
        random.shuffle(&mut members);
        Node::Object(members)
    }

    fn put_details(&self, members: &mut Vec<(String, Node)>, random: &mut Random) {
        let zone = self.zone.as_ref().map_or_else(|| Node::leaf("null"), Node::string);
        either(members, "timeZone", zone, self.zone.is_none(), random);
        either(members, "privacy", Node::string(&self.privacy), self.privacy == "public", random);
        let length = Node::string(duration(self.duration, random));
        either(members, "duration", length, self.duration == Length::default(), random);
        either(members, "freeBusyStatus", Node::string(if self.busy { "busy" } else { "free" }), self.busy, random);
        let all_day = Node::leaf(if self.all_day { "true" } else { "false" });
        either(members, "showWithoutTime", all_day, !self.all_day, random);
        for (name, text) in [("title", &self.title), ("description", &self.description)] {
            members.extend(text.as_ref().map(|text| (name.to_string(), Node::string(text))));
        }
    }

    fn put_recurrence(&self, members: &mut Vec<(String, Node)>, random: &mut Random) {
        for (name, rules) in [("recurrenceRules", &self.rules), ("excludedRecurrenceRules", &self.excluded_rules)] {
            let list = Node::Array(rules.iter().map(|rule| rule.node(random)).collect());
            either(members, name, list, rules.is_empty(), random);
        }
        let mut overrides: Vec<(String, Node)> = self.overrides.iter().map(|(id, own)| (dates::written(*id), own.node(random))).collect();
        random.shuffle(&mut overrides);
        either(members, "recurrenceOverrides", Node::Object(overrides), self.overrides.is_empty(), random);
    }

    /// Dates to ask for: the start, overrides, their neighbours, and numbers far out.
    pub(crate) fn dates(&self, random: &mut Random) -> Vec<i64> {
        let mut dates = vec![self.start, random.pick(&[i64::MIN, i64::MAX, FIRST - 1, END, 0, -1, self.start + 1])];
        dates.push(self.start.saturating_add(random.within(-2..=400) * DAY));
        dates.push(self.start.saturating_add(random.within(-2..=60) * 7 * DAY));
        dates.extend(self.overrides.iter().take(2).map(|(id, _)| *id));
        dates
    }
}

/// The start: mostly of our time, sometimes at an edge of the calendar or of the profile.
fn start(random: &mut Random) -> i64 {
    let day = match random.below(11) {
        0 => FIRST / DAY + random.within(0..=800),
        1 => END / DAY - random.within(1..=800),
        // December 9998, from where most lengths lead into 9999 and some to 10000.
        2 => END / DAY - random.within(1..=31),
        3 => random.within(FIRST / DAY..=END / DAY - 1),
        // Around a turn of the year, a leap day, and the end of January.
        4 => random.within(0..=100) * 365 + random.within(-10..=70),
        5 => random.pick(&[19_782, 19_753, 11_016, -25_508, 8_459, 47_540]),
        _ => random.within(18_000..=21_000),
    };
    let time = random.pick(&[0, 32_400, 86_399, 1, 46_800]);
    day * DAY + time
}

/// Some overrides near the start, each date once.
fn overrides(start: i64, random: &mut Random) -> Vec<(i64, OverrideModel)> {
    let count = if random.once_in(2) { 0 } else { random.below(6) };
    let mut overrides: Vec<(i64, OverrideModel)> = Vec::new();
    for _ in 0..count {
        let days = match random.below(3) {
            0 => random.within(-3..=14),
            1 => 7 * random.within(0..=20),
            _ => random.within(-400..=800),
        };
        let second = if random.once_in(4) { random.within(-40_000..=40_000) } else { 0 };
        let id = (start + days * DAY + second).clamp(FIRST, END - 1);
        if overrides.iter().all(|(other, _)| *other != id) {
            overrides.push((id, OverrideModel::random(id, random)));
        }
    }
    overrides
}

/// JSON that nobody looks into.
pub(crate) fn ignored(levels: u64, random: &mut Random) -> Node {
    let leaves = ["null", "true", "false", "-0", "1.5e-3", "12345678901234567890", "\"\\ud834\\udd1e\"", "\"\"", "[]", "{}"];
    match random.below(if levels == 0 { 1 } else { 4 }) {
        0 | 1 => Node::leaf(random.pick(&leaves)),
        2 => Node::Array((0..random.below(4)).map(|_| ignored(levels - 1, random)).collect()),
        _ => Node::Object((0..random.below(4)).map(|place| (format!("{}{place}", word(random)), ignored(levels - 1, random))).collect()),
    }
}
