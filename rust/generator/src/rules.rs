//! Rules of recurrence.

use crate::dates::{self, DAY, END};
use crate::node::Node;
use crate::random::Random;
use crate::spelling::{either, word};

/// What a rule says.
#[derive(Clone, Debug)]
pub struct RuleModel {
    pub frequency: &'static str,
    pub interval: i64,
    pub first_day_of_week: &'static str,
    pub by_day: Vec<(&'static str, Option<i64>)>,
    pub by_month_day: Vec<i64>,
    pub by_month: Vec<i64>,
    pub by_set_position: Vec<i64>,
    pub count: Option<i64>,
    pub until: Option<i64>,
}

const DAYS: [&str; 7] = ["mo", "tu", "we", "th", "fr", "sa", "su"];

impl RuleModel {
    /// A rule of an event with this start.
    pub fn random(start: i64, random: &mut Random) -> RuleModel {
        let frequency = random.pick(&["daily", "weekly", "monthly", "yearly"]);
        let ends = random.below(3);
        RuleModel {
            frequency,
            interval: interval(random),
            first_day_of_week: if random.once_in(3) { random.pick(&DAYS) } else { "mo" },
            by_day: by_day(frequency, random),
            by_month_day: some(3, random, |random| signed_place(31, random)),
            by_month: some(3, random, |random| random.within(1..=12)),
            by_set_position: some(4, random, |random| position(frequency, random)),
            count: (ends == 0).then(|| count(random)),
            until: (ends == 1).then(|| until(start, random)),
        }
    }

    /// Does it give few dates from this start on?
    pub fn is_short(&self, start: i64) -> bool {
        self.count.is_some_and(|count| count <= 400) || self.until.is_some_and(|until| until <= start + 3_000 * DAY)
    }

    /// The rule as JSON; default values are written or left out.
    pub fn node(&self, random: &mut Random) -> Node {
        let mut members =
            vec![("@type".to_string(), Node::string("RecurrenceRule")), ("frequency".to_string(), Node::string(self.frequency))];
        either(&mut members, "interval", Node::number(self.interval), self.interval == 1, random);
        either(&mut members, "firstDayOfWeek", Node::string(self.first_day_of_week), self.first_day_of_week == "mo", random);
        either(&mut members, "rscale", Node::string("gregorian"), true, random);
        either(&mut members, "skip", Node::string("omit"), true, random);
        list(&mut members, "byDay", &self.by_day, |entry| nth_day(*entry));
        list(&mut members, "byMonthDay", &self.by_month_day, |day| Node::number(*day));
        list(&mut members, "byMonth", &self.by_month, |month| Node::string(month.to_string()));
        list(&mut members, "bySetPosition", &self.by_set_position, |place| Node::number(*place));
        if let Some(count) = self.count {
            members.push(("count".to_string(), Node::number(count)));
        }
        if let Some(until) = self.until {
            members.push(("until".to_string(), Node::string(dates::written(until))));
        }
        if random.once_in(10) {
            members.push(("comment".to_string(), Node::string(word(random))));
        }
        random.shuffle(&mut members);
        Node::Object(members)
    }
}

fn list<T>(members: &mut Vec<(String, Node)>, name: &str, entries: &[T], node: impl Fn(&T) -> Node) {
    if !entries.is_empty() {
        members.push((name.to_string(), Node::Array(entries.iter().map(node).collect())));
    }
}

fn nth_day((day, nth): (&str, Option<i64>)) -> Node {
    let mut members = vec![("@type".to_string(), Node::string("NDay")), ("day".to_string(), Node::string(day))];
    members.extend(nth.map(|nth| ("nthOfPeriod".to_string(), Node::number(nth))));
    Node::Object(members)
}

/// Some entries, but mostly none.
fn some<T>(one_in: u64, random: &mut Random, mut entry: impl FnMut(&mut Random) -> T) -> Vec<T> {
    if !random.once_in(one_in) {
        return Vec::new();
    }
    let most = if random.once_in(5) { 12 } else { 3 };
    (0..=random.below(most)).map(|_| entry(random)).collect()
}

fn by_day(frequency: &str, random: &mut Random) -> Vec<(&'static str, Option<i64>)> {
    let counts = matches!(frequency, "monthly" | "yearly") && random.once_in(2);
    some(2, random, |random| {
        let nth = (counts && !random.once_in(4)).then(|| signed_place(if random.once_in(3) { 53 } else { 5 }, random));
        (random.pick(&DAYS), nth)
    })
}

/// A place from the front or the back, never 0.
fn signed_place(furthest: i64, random: &mut Random) -> i64 {
    let place = random.within(1..=furthest);
    if random.once_in(3) {
        -place
    } else {
        place
    }
}

fn position(frequency: &str, random: &mut Random) -> i64 {
    let furthest = match (frequency, random.below(4)) {
        (_, 0) => 366,
        ("daily", _) => 2,
        ("weekly", _) => 5,
        _ => 12,
    };
    signed_place(furthest, random)
}

fn interval(random: &mut Random) -> i64 {
    match random.below(12) {
        0..=5 => 1,
        6..=9 => random.within(2..=5),
        10 => random.within(6..=400),
        _ => random.pick(&[1_000, 9_999, 1 << 31, 1 << 32, (1 << 53) - 1]),
    }
}

fn count(random: &mut Random) -> i64 {
    match random.below(12) {
        0..=8 => random.within(1..=12),
        9..=10 => random.within(13..=400),
        _ => random.pick(&[10_000, 1 << 32, (1 << 53) - 1]),
    }
}

/// Mostly some weeks or years behind the start, sometimes before it or at the end of time.
fn until(start: i64, random: &mut Random) -> i64 {
    let seconds = match random.below(8) {
        0 => start - random.within(-1..=40 * DAY),
        1 => END + 365 * DAY - 1,
        2..=4 => start + random.within(0..=60) * DAY,
        _ => start + random.within(0..=3_000 * DAY),
    };
    seconds.clamp(dates::FIRST, END + 365 * DAY - 1)
}
