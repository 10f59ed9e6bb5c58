//! Where a wrong value stands.

use super::path::{MemberPath, Step};
use super::walk::Walk;
use std::ops::Range;

/// Where a wrong value stands in an event's text.
#[derive(Clone, Debug, PartialEq, Eq)]
pub struct Place {
    /// The byte at which it begins, from 0; of a string or a name this is the opening quote.
    pub byte: usize,
    /// How many bytes it has: a name, string, number, `true`, `false` or `null` as a whole, of an array or object only the opening bracket.
    pub length: usize,
    /// The line, from 1. Lines end with a line feed.
    pub line: usize,
    /// The column in the line, from 1, in characters: Unicode's, of which a tab is one.
    pub column: usize,
    /// The way to it. The name of an override has the path of that override; where a member is missing, it is the path of its object.
    pub path: MemberPath,
    /// Does the event say that anybody may read it? Its `privacy` is `public`, or there is none. Where that cannot be read, it does not.
    pub is_public: bool,
}

impl Place {
    /// The place of the name or value that begins at a byte of a text.
    pub(super) fn find(text: &[u8], byte: usize) -> Place {
        let mut walk = Walk::new(text);
        let length = walk.find(|found| found.bytes.start >= byte).map_or(0, |found| found.bytes.len());
        let path = MemberPath::new(walk.steps().to_vec());
        let (line, column) = line_and_column(&text[..byte]);
        Place { byte, length, line, column, path, is_public: is_public(text) }
    }

    /// The bytes of the value in its text.
    pub fn bytes(&self) -> Range<usize> {
        self.byte..self.byte + self.length
    }
}

/// The line and the column after some text.
fn line_and_column(before: &[u8]) -> (usize, usize) {
    let lines = before.iter().filter(|byte| **byte == b'\n').count();
    let own = before.rsplit(|byte| *byte == b'\n').next().unwrap_or_default();
    // In UTF-8 every character has one byte that does not go on with another.
    let letters = own.iter().filter(|byte| **byte & 0xc0 != 0x80).count();
    (lines + 1, letters + 1)
}

/// Is `privacy` absent, or `public` without an escape?
fn is_public(text: &[u8]) -> bool {
    let mut walk = Walk::new(text);
    while let Some(found) = walk.next() {
        let is_privacy = matches!(walk.steps(), [Step::Member(name)] if name == "privacy");
        if is_privacy && !found.is_name {
            return &text[found.bytes] == b"\"public\"";
        }
    }
    true
}

#[cfg(test)]
mod tests {
    use super::*;

    /// The place of the mark, which is taken out of the text.
    fn place(marked: &str) -> Place {
        let byte = marked.find('^').unwrap();
        Place::find(marked.replacen('^', "", 1).as_bytes(), byte)
    }

    #[test]
    fn paths() {
        for (marked, path) in [
            (r#"{"start": ^1}"#, "start"),
            (r#" {"a": {"start": 1}, "b": [{"start": 2}], "start" : ^"x"}"#, "start"),
            (r#"{"recurrenceRules": [{}, {"byDay": [{}, [], ^{"day": "mo"}]}]}"#, "recurrenceRules[1].byDay[2]"),
            (
                r#"{"recurrenceRules": [{"byDay": [{"x": [1, 2]}, {"day": "mo", "nthOfPeriod": ^0}]}]}"#,
                "recurrenceRules[0].byDay[1].nthOfPeriod",
            ),
            (r#"{"recurrenceRules": [ ^{ "frequency" : "daily" } ]}"#, "recurrenceRules[0]"),
            (r#"{"recurrenceRules":[{"byMonth":^[]}]}"#, "recurrenceRules[0].byMonth"),
            (r#"{"recurrenceOverrides": {"y": {"title": "}"}, ^"x": {}}}"#, r#"recurrenceOverrides["x"]"#),
            (r#"{"recurrenceOverrides": {"y": {"title": "\"],"}, "x": ^[]}}"#, r#"recurrenceOverrides["x"]"#),
            (r#"{"recurrenceOverrides": {"x": {}, "y": {"title": "\\", "start": ^null}}}"#, r#"recurrenceOverrides["y"].start"#),
            (r#"{"recurrenceRules":[{"byMonthDay":[-1,true,"a",{},[],^0]}]}"#, "recurrenceRules[0].byMonthDay[5]"),
        ] {
            assert_eq!(place(marked).path.to_string(), path, "{marked}");
        }
    }

    #[test]
    fn lines_columns_and_lengths() {
        for (marked, expected) in [
            (r#"{"uid":^"ab"}"#, (1, 8, 4)),
            ("{\n\t\"uid\": ^1.50\r\n}", (2, 9, 4)),
            ("{\"title\": \"ä€𝄞\", \"uid\": ^null}", (1, 25, 4)),
            ("\n\r\n{\"x\"\n:\"\n\",\r\"uid\"\r:^[]}", (5, 11, 1)),
            (r#"{"uid":^"a\"b\\"}"#, (1, 8, 8)),
            ("{\"uid\":^true\t}", (1, 8, 4)),
            ("{\"recurrenceOverrides\":\n {^\"ß\" :{}}}", (2, 3, 4)),
        ] {
            let place = place(marked);
            assert_eq!((place.line, place.column, place.length), expected, "{marked}");
        }
    }

    #[test]
    fn privacy() {
        for (text, is_public) in [
            (r#"{"a": ^1}"#, true),
            (r#"{"a": ^1, "privacy" : "public"}"#, true),
            (r#"{"x": {"privacy": "secret"}, "y": [{"privacy": 1}], "a": ^1}"#, true),
            (r#"{"a": ^1, "privacy": "private"}"#, false),
            (r#"{"privacy": "secret", "a": ^1}"#, false),
            (r#"{"a": ^1, "privacy": "publi"}"#, false),
            (r#"{"privacy": ^null}"#, false),
            (r#"{"privacy": ^"publi\u0063"}"#, false),
            (r#"{"x": {"privacy": "public"}, "privacy": ^{"privacy": "public"}}"#, false),
        ] {
            assert_eq!(place(text).is_public, is_public, "{text}");
        }
    }

    /// Whatever the bytes are, something comes out.
    #[test]
    fn no_bytes_stop_it() {
        let random = &mut generator::Random::new(7);
        for seed in 0..2_000 {
            let text = generator::Case::new(seed).text;
            let place = Place::find(&text, random.index(text.len() + 1));
            assert!(place.bytes().start <= text.len() && place.line > 0 && place.column > 0);
        }
    }
}
