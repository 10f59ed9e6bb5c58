//! Texts that are long, deep, or hardly JSON.

use crate::dates::{self, DAY};
use crate::model::Model;
use crate::node::Node;
use crate::random::Random;

/// The longest text that is read.
const LONGEST: usize = 65_536;

/// A text that is no event in most cases.
pub fn text(random: &mut Random) -> Vec<u8> {
    match random.below(5) {
        0 => deep(random),
        1 => (0..random.below(60)).map(|_| random.next() as u8).collect(),
        2 => tokens(random),
        3 => string(random),
        _ => surrogates(random),
    }
}

/// Around 16 levels, closed or broken off.
fn deep(random: &mut Random) -> Vec<u8> {
    let levels = random.within(14..=18);
    let opened: String = (0..levels).map(|_| random.pick(&["[", "{\"a\":", "[1,", "[{},"])).collect();
    let closed: String = match random.below(3) {
        0 => String::new(),
        _ => opened.chars().rev().filter_map(|c| if c == '[' { Some(']') } else { (c == '{').then_some('}') }).collect(),
    };
    let front = random.pick(&["", " ", "[\"\\ud800\",", "[1,", "{\"a\":1,\"a\":", "[x,"]);
    format!("{front}{opened}1{closed}").into_bytes()
}

/// Pieces of JSON in any order.
fn tokens(random: &mut Random) -> Vec<u8> {
    let pieces = [
        "{", "}", "[", "]", ",", ":", "\"a\"", "\"b\"", "1", "-", "0", "1.5", "e3", "true", "null", "fals", " ", "\n", "\"", "\\",
        "\"\\n\":",
    ];
    (0..random.below(14)).flat_map(|_| random.pick(&pieces).bytes()).collect()
}

/// A string of any bytes, mostly two that belong together in UTF-8.
fn string(random: &mut Random) -> Vec<u8> {
    let mut text = b"[\"".to_vec();
    for _ in 0..random.below(4) {
        let lead = random.within(0xbf..=0xf6) as u8;
        text.push(lead);
        let length = if lead < 0xe0 { 1 } else { 2 + usize::from(lead >= 0xf0) };
        let second = random.pick(&[0x7f, 0x80, 0x8f, 0x90, 0x9f, 0xa0, 0xbf, 0xc0]);
        text.push(second);
        text.extend((1..length).map(|_| random.pick(&[0x80, 0xbf, 0x80, 0xbf, 0x7f])));
    }
    text.extend(b"\"]");
    text
}

/// Escapes, with surrogates in any order.
fn surrogates(random: &mut Random) -> Vec<u8> {
    let units = ["\\ud800", "\\uDBFF", "\\udc00", "\\uDfFf", "\\u0041", "\\n", "x", "\\ud83d\\ude00", "\\u12", "\\ud7ff", "\\ue000"];
    let text: String = (0..random.below(6)).map(|_| random.pick(&units)).collect();
    if random.once_in(3) {
        format!("{{\"{text}\":1}}").into_bytes()
    } else {
        format!("[\"{text}\"]").into_bytes()
    }
}

/// An event with much in it.
pub fn long(model: &Model, random: &mut Random) -> Vec<u8> {
    let mut tree = model.node(random);
    let Node::Object(members) = &mut tree else { unreachable!("an event is an object") };
    match random.below(6) {
        0 => members.push(("y".to_string(), many_names(random))),
        1 => put(members, "recurrenceOverrides", many_overrides(model.start, random)),
        2 => repeat_rules(members, random),
        3 => members.push(("z".to_string(), nested(random.within(13..=17)))),
        4 => put(members, "description", Node::string("\\u00e4".repeat(random.index(3_000)))),
        _ => return padded(tree.text(random), random),
    }
    tree.text(random)
}

fn put(members: &mut Vec<(String, Node)>, name: &str, value: Node) {
    members.retain(|(own, _)| own != name);
    members.push((name.to_string(), value));
}

/// An object of many members; sometimes two have the same name.
fn many_names(random: &mut Random) -> Node {
    let count = random.pick(&[3, 4, 5, 30, 300, 3_000]);
    let mut names: Vec<(String, Node)> = (0..count).map(|place| (format!("{place:x}"), Node::leaf("0"))).collect();
    if random.once_in(2) {
        let same = names[random.index(count)].clone();
        let place = random.index(count);
        names.insert(place, same);
    }
    random.shuffle(&mut names);
    Node::Object(names)
}

/// About as many overrides as are allowed.
fn many_overrides(start: i64, random: &mut Random) -> Node {
    let count = random.pick(&[255, 256, 257]);
    let spacing = random.pick(&[1, 3_600, DAY, 7 * DAY]);
    let first = start.clamp(dates::FIRST, dates::END - 300 * 7 * DAY);
    let patch = |place: i64| match place % 5 {
        0 => Node::Object(vec![("excluded".to_string(), Node::leaf("true"))]),
        1 => Node::Object(vec![("duration".to_string(), Node::string("PT5M"))]),
        2 => Node::Object(vec![("duration".to_string(), Node::string("P1D"))]),
        _ => Node::Object(Vec::new()),
    };
    let mut overrides: Vec<(String, Node)> = (0..count).map(|place| (dates::written(first + place * spacing), patch(place))).collect();
    random.shuffle(&mut overrides);
    Node::Object(overrides)
}

/// About as many rules as are allowed.
fn repeat_rules(members: &mut [(String, Node)], random: &mut Random) {
    for (name, value) in members {
        if let (true, Node::Array(rules)) = (name.ends_with("Rules"), value) {
            if let Some(rule) = rules.first().cloned() {
                rules.resize(random.pick(&[7, 8, 9]), rule);
            }
        }
    }
}

fn nested(levels: i64) -> Node {
    (0..levels).fold(Node::leaf("1"), |inner, _| Node::Array(vec![inner]))
}

/// Padded with space to about the longest text.
fn padded(mut text: Vec<u8>, random: &mut Random) -> Vec<u8> {
    let length = LONGEST - 1 + random.index(3);
    let place = if random.once_in(2) { 0 } else { text.len() };
    let space = length.saturating_sub(text.len());
    text.splice(place..place, std::iter::repeat_n(b' ', space));
    text
}
