//! Events with something wrong in them.

use crate::model::ignored;
use crate::node::Node;
use crate::random::Random;
use crate::spelling::word;

/// Values that are wrong somewhere, or right at a limit; strings without their quotes.
#[rustfmt::skip]
const NUMBERS: [&str; 22] = [
    "0", "-0", "1", "-1", "1.0", "1e1", "-1.5", "31", "32", "-31", "-32", "53", "-53", "54", "366", "-366", "367", "9007199254740991",
    "9007199254740992", "-9007199254740991", "-9007199254740992", "99999999999999999999999999",
];
#[rustfmt::skip]
const DATE_TIMES: [&str; 22] = [
    "2024-02-29T00:00:00", "2023-02-29T00:00:00", "2024-01-01T00:00:00.5", "2024-01-01T00:00:00.50", "2024-01-01T00:00:00.0",
    "2024-01-01T00:00:00.", "2024-01-01T00:00:00Z", "2024-01-01T00:00:00.25Z", "2024-01-01T00:00:00.250Z", "0000-01-01T00:00:00Z",
    "1601-01-01T00:00:00", "1600-12-31T23:59:59", "9998-12-31T23:59:59", "9999-01-01T00:00:00", "9999-12-31T23:59:59",
    "2024-01-01T24:00:00", "2024-01-01T23:59:60", "2024-01-01T23:60:00", "2024-04-31T00:00:00", "2024-00-10T00:00:00",
    "2024-01-01t00:00:00", "2024-01-01",
];
#[rustfmt::skip]
const DURATIONS: [&str; 28] = [
    "P1D", "PT0.5S", "PT0.50S", "PT0.0S", "PT1H5S", "P366D", "P366DT0S", "P366DT1S", "P367D", "P366DT0.5S", "P365DT23H59M59.9S", "P",
    "PT", "pt1h", "P1W2D", "P2D1W", "P1DT", "PT99999999999999999999M", "P52W2D", "-P1D", "PT24H", "P1DT24H", "P1W", "P365DT24H",
    "P365DT24H0M1S", "PT8784H", "PT8784H0M1S", "PT8783H59M59.9S",
];
#[rustfmt::skip]
const WORDS: [&str; 26] = [
    "", "1", "12", "13", "1L", "13L", "01", "mo", "su", "MO", "daily", "weekly", "hourly", "secondly", "yearly ", "gregorian", "hebrew",
    "omit", "forward", "free", "busy", "secret", "Event", "NDay", "a\\n", "\\ud800",
];
const SHAPES: [&str; 8] = ["null", "true", "false", "[]", "{}", "[1]", "[{}]", "[null]"];

/// Member names that are read somewhere, or refused.
#[rustfmt::skip]
const NAMES: [&str; 40] = [
    "@type", "uid", "updated", "start", "timeZone", "duration", "freeBusyStatus", "showWithoutTime", "title", "description", "privacy",
    "excluded", "recurrenceId", "recurrenceRules", "excludedRecurrenceRules", "recurrenceOverrides", "frequency", "interval", "count",
    "until", "firstDayOfWeek", "rscale", "skip", "byDay", "byMonthDay", "byMonth", "bySetPosition", "byYearDay", "byWeekNo", "byHour",
    "byMinute", "bySecond", "day", "nthOfPeriod", "a/b", "a~0", "x", "a\\n", "2024-01-01T00:00:00", "2024-01-01T00:00:00.5",
];

/// Changes of the tree: forms that are refused, one value at a limit of its kind, or anything up to three times.
pub fn in_tree(mut tree: Node, random: &mut Random) -> Vec<u8> {
    match random.below(3) {
        0 => refuse(&mut tree, random),
        1 => change_leaf(&mut tree, random),
        _ => {
            for _ in 0..=random.below(3) {
                let place = random.index(tree.size());
                change(tree.nth(place), random);
            }
        }
    }
    tree.text(random)
}

/// Puts a value of the same kind in the place of one.
fn change_leaf(tree: &mut Node, random: &mut Random) {
    loop {
        let place = random.index(tree.size());
        if let Node::Leaf(text) = tree.nth(place) {
            *text = alike(text, random);
            return;
        }
    }
}

/// Members of a rule that are refused, alone or with others of it.
const RULE_MEMBERS: [(&str, &str); 9] = [
    ("count", "3"),
    ("until", "\"2025-01-01T00:00:00\""),
    ("byDay", "[{\"@type\":\"NDay\",\"day\":\"mo\",\"nthOfPeriod\":2}]"),
    ("byHour", "[8,13]"),
    ("byWeekNo", "[]"),
    ("rscale", "\"hebrew\""),
    ("skip", "\"backward\""),
    ("byMonth", "[\"3\",\"3L\"]"),
    ("frequency", "\"hourly\""),
];

/// Members of a patch that are refused, alone or with others of it.
const PATCH_MEMBERS: [(&str, &str); 5] =
    [("excluded", "true"), ("timeZone", "null"), ("locations/1/name", "\"a\""), ("a~1b", "1"), ("start", "\"2024-01-01T00:00:00.5\"")];

/// Forms that are well written and still refused: conflicts, and what is not supported.
pub fn refuse(node: &mut Node, random: &mut Random) {
    match node {
        Node::Leaf(_) | Node::Wrong(..) | Node::Misnamed(..) => {}
        Node::Array(elements) => elements.iter_mut().for_each(|element| refuse(element, random)),
        Node::Object(members) => {
            let is_rule = members.iter().any(|(name, _)| name == "frequency");
            if is_rule && random.once_in(2) {
                (0..=random.below(3)).for_each(|_| put(members, random.pick(&RULE_MEMBERS)));
                lengthen(members, random);
            }
            for (name, value) in members {
                refuse(value, random);
                if let (true, Node::Object(patch)) = (is_date_time(name) && random.once_in(2), value) {
                    put(patch, random.pick(&PATCH_MEMBERS));
                }
            }
        }
    }
}

/// Makes a list longer than is allowed, now and then: 9 comes after all other faults.
fn lengthen(members: &mut [(String, Node)], random: &mut Random) {
    for (_, value) in members {
        if let (true, Node::Leaf(text)) = (random.once_in(6), value) {
            if let Some(entry) = text.strip_prefix('[').and_then(|rest| rest.strip_suffix(']')).filter(|entry| !entry.is_empty()) {
                *text = format!("[{}]", vec![entry; 65].join(","));
            }
        }
    }
}

fn put(members: &mut Vec<(String, Node)>, (name, value): (&str, &str)) {
    members.retain(|(own, _)| own != name);
    members.push((name.to_string(), Node::leaf(value)));
}

fn change(node: &mut Node, random: &mut Random) {
    match node {
        Node::Object(members) if !random.once_in(4) => change_members(members, random),
        Node::Array(elements) if !random.once_in(4) => change_elements(elements, random),
        Node::Leaf(text) if random.once_in(3) => change_letter(text, random),
        Node::Leaf(text) if random.once_in(2) => *text = alike(text, random),
        _ => *node = value(random),
    }
}

/// Any value.
fn value(random: &mut Random) -> Node {
    match random.below(6) {
        0 => Node::leaf(random.pick(&NUMBERS)),
        1 => Node::string(random.pick(&DATE_TIMES)),
        2 => Node::string(random.pick(&DURATIONS)),
        3 => Node::string(random.pick(&WORDS)),
        4 => Node::leaf(random.pick(&SHAPES)),
        _ => ignored(3, random),
    }
}

/// A value of the same kind.
fn alike(text: &str, random: &mut Random) -> String {
    let word = match text.as_bytes() {
        [b'"', .., b'"'] if is_date_time(&text[1..]) => random.pick(&DATE_TIMES),
        [b'"', b'P' | b'p', ..] => random.pick(&DURATIONS),
        [b'"', ..] => random.pick(&WORDS),
        [b'-' | b'0'..=b'9', ..] => return random.pick(&NUMBERS).to_string(),
        _ => return random.pick(&SHAPES).to_string(),
    };
    format!("\"{word}\"")
}

/// Does a text begin like a date-time?
fn is_date_time(text: &str) -> bool {
    text.len() > 10 && text.as_bytes()[4] == b'-' && text.as_bytes()[10] == b'T'
}

/// Puts in, takes out, doubles, renames or replaces a member.
fn change_members(members: &mut Vec<(String, Node)>, random: &mut Random) {
    let new = (random.pick(&NAMES).to_string(), value(random));
    if members.is_empty() {
        members.push(new);
        return;
    }
    let place = random.index(members.len());
    match random.below(6) {
        0 | 1 => members.insert(place, new),
        2 => drop(members.remove(place)),
        3 => members[place].1 = new.1,
        4 if random.once_in(3) => members.push(members[place].clone()),
        4 | 5 if is_date_time(&members[place].0) => members[place].0 = random.pick(&DATE_TIMES).to_string(),
        4 => members[place].0 = word(random),
        _ => members[place].0 = new.0,
    }
}

/// Puts in, takes out or repeats elements, up to and over the limits of lists.
fn change_elements(elements: &mut Vec<Node>, random: &mut Random) {
    if elements.is_empty() || random.once_in(4) {
        elements.push(value(random));
    } else if random.once_in(3) {
        elements.clear();
    } else {
        let element = elements[random.index(elements.len())].clone();
        let length = random.pick(&[2, 8, 9, 63, 64, 65]);
        elements.resize(length, element);
    }
}

/// Changes a letter or a digit of a leaf; strings and numbers often stay what they are.
fn change_letter(text: &mut String, random: &mut Random) {
    let mut letters: Vec<char> = text.chars().collect();
    if letters.is_empty() {
        return;
    }
    let place = random.index(letters.len());
    letters[place] = random.pick(&['0', '1', '9', 'T', 'Z', '-', '.', 'P', 'L', 'e', '"', '\\', ' ', 'ä']);
    *text = letters.into_iter().collect();
}

/// Some changes of bytes.
pub fn in_bytes(mut text: Vec<u8>, random: &mut Random) -> Vec<u8> {
    for _ in 0..=random.below(3) {
        if text.is_empty() {
            break;
        }
        let place = random.index(text.len());
        let byte = random.pick(b"\"\\{}[],:0129-.eE+tfnu \n\x00\x1f\x7f\x80\xbf\xc0\xc2\xe0\xed\xf0\xf4\xff");
        match random.below(6) {
            0 => text[place] = byte,
            1 => text.insert(place, byte),
            2 => drop(text.remove(place)),
            3 => text.truncate(place),
            4 => text[place] ^= 1 << random.below(8),
            _ => {
                let end = (place + random.index(20)).min(text.len());
                let part = text[place..end].to_vec();
                let target = random.index(text.len());
                text.splice(target..target, part);
            }
        }
    }
    text
}
