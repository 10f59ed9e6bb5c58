//! Texts with their answer numbers and places: those of a list, texts at the limits, and texts with space.
//!
//! In all of them `^` marks the value that is wrong, for the answers 20 to 26: the mark is taken out, and the place is where it stood.

use super::{by_day, event, places, recurring};

/// The list.
const LIST: &str = include_str!("../../data/answers.txt");

const START: &str = "2024-01-01T09:00:00";

/// A text, and what a call on it answers.
#[derive(Clone, Debug)]
pub struct Answered {
    pub text: Vec<u8>,
    pub answer: u32,
    /// Where the first wrong value begins; 0 where the answer is none of 20 to 26.
    pub place: u64,
}

/// All texts.
pub fn all() -> Vec<Answered> {
    let lines = LIST.lines().filter(|line| !line.is_empty() && !line.starts_with('#'));
    let mut all: Vec<Answered> = lines.map(read).collect();
    all.extend(bytes().map(|bytes| Answered { text: bytes.to_vec(), answer: 3, place: 0 }));
    all.extend(at_limits().into_iter().map(|(answer, text)| marked(answer, &text)));
    all.extend(places::all().map(|(answer, text)| marked(answer, text)));
    all
}

/// A line of the list.
fn read(line: &str) -> Answered {
    let (kind, rest) = line.split_once(' ').expect("a kind");
    let (answer, content) = rest.split_once(' ').unwrap_or((rest, ""));
    let text = match kind {
        "text" => content.to_string(),
        "event" => event(START, &format!(", {content}")),
        "rule" => recurring(START, content),
        "patch" => event(START, &format!(r#", "recurrenceOverrides": {{"2024-01-02T09:00:00": {{{content}}}}}"#)),
        _ => panic!("{kind} is no kind of text"),
    };
    marked(answer.parse().expect("a number"), &text)
}

/// A text without its mark, which it has for 20 to 26.
fn marked(answer: u32, text: &str) -> Answered {
    let place = text.find('^');
    assert_eq!(place.is_some(), (20..=26).contains(&answer), "{answer} {text}");
    Answered { text: text.replacen('^', "", 1).into_bytes(), answer, place: place.unwrap_or(0) as u64 }
}

/// Texts that are no JSON by single bytes: UTF-8 that is wrong or no longer allowed, control characters, a byte order mark.
fn bytes() -> [&'static [u8]; 14] {
    [
        b"\"\x80\"",
        b"\"\xc0\xaf\"",
        b"\"\xc1\xbf\"",
        b"\"\xe0\x9f\xbf\"",
        b"\"\xed\xa0\x80\"",
        b"\"\xf0\x8f\xbf\xbf\"",
        b"\"\xf4\x90\x80\x80\"",
        b"\"\xf5\x80\x80\x80\"",
        b"\"\xe2\x82\"",
        b"\xff",
        b"{}\xff",
        b"\"\t\"",
        b"\"\x00\"",
        b"\xef\xbb\xbf{}",
    ]
}

/// Texts at the limits and one over them.
fn at_limits() -> Vec<(u32, String)> {
    let mut list = vec![(0, long(65_536)), (1, long(65_537)), (1, "[".repeat(65_537)), (3, "x".repeat(65_536))];
    let nested = |levels: usize| event(START, &format!(r#", "x": {}{}"#, "[".repeat(levels), "]".repeat(levels)));
    list.extend([(0, nested(15)), (2, nested(16))]);
    for name in ["recurrenceRules", "excludedRecurrenceRules"] {
        list.extend([(0, rules(name, 8, "")), (9, rules(name, 9, "")), (20, rules(name, 9, ", ^1")), (26, rules(name, 9, ", ^{}"))]);
    }
    for (name, entry) in [("byMonthDay", "1"), ("byMonth", "\"1\""), ("bySetPosition", "1"), ("byDay", r#"{"@type": "NDay", "day": "mo"}"#)]
    {
        let entries = |count: usize, last: &str| {
            recurring(START, &format!(r#""frequency": "daily", "{name}": [{}{last}]"#, vec![entry; count].join(",")))
        };
        list.extend([(0, entries(64, "")), (9, entries(65, "")), (20, entries(70, ", ^null"))]);
    }
    list.extend([(0, overrides(256, "")), (9, overrides(257, "")), (21, overrides(300, r#", ^"x": {}"#))]);
    list.push((8, overrides(300, r#", "2025-01-01T00:00:00": {"a/b": 1}"#)));
    // 7 before 9: a list that is too long is still judged.
    list.push((7, recurring(START, &format!(r#""frequency": "weekly", {}"#, by_day(&["1mo"; 65].join(" "))))));
    list
}

/// An event of exactly so many bytes.
fn long(length: usize) -> String {
    let bare = event(START, r#", "title": """#).len();
    event(START, &format!(r#", "title": "{}""#, "a".repeat(length - bare)))
}

fn rules(name: &str, count: usize, last: &str) -> String {
    let rule = r#"{"@type": "RecurrenceRule", "frequency": "daily"}"#;
    event(START, &format!(r#", "{name}": [{}{last}]"#, vec![rule; count].join(",")))
}

fn overrides(count: usize, last: &str) -> String {
    let names: Vec<String> = (0..count).map(|n| format!(r#""2024-01-01T{:02}:{:02}:00": {{}}"#, n / 60, n % 60)).collect();
    event(START, &format!(r#", "recurrenceOverrides": {{{}{last}}}"#, names.join(",")))
}
