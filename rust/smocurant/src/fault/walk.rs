//! Goes through a JSON text, name by name and value by value, and knows the way to each.
//!
//! The text is one that the library has read: JSON by its grammar, with no backslash in a member name. Of other bytes it makes something,
//! too, but nothing of use.

use super::path::Step;
use std::ops::Range;

/// A walk through a text, from its beginning.
pub(super) struct Walk<'t> {
    text: &'t [u8],
    at: usize,
    steps: Vec<Step>,
    /// The first step into the array or object that was found last.
    opened: Option<Step>,
    expects_name: bool,
}

/// A name or a value that was found.
pub(super) struct Found {
    pub is_name: bool,
    /// Its bytes; of an array or object only the opening bracket.
    pub bytes: Range<usize>,
}

impl<'t> Walk<'t> {
    pub fn new(text: &'t [u8]) -> Walk<'t> {
        Walk { text, at: 0, steps: Vec::new(), opened: None, expects_name: false }
    }

    /// The way to what was found last. A name has that of its value.
    pub fn steps(&self) -> &[Step] {
        &self.steps
    }

    /// Takes a byte that is no name and no value: brackets that close, and what stands between values.
    fn pass(&mut self, byte: u8) {
        match (byte, self.steps.last_mut()) {
            (b'}' | b']', _) => {
                self.steps.pop();
                self.expects_name = false;
            }
            (b',', Some(Step::Entry(place))) => *place += 1,
            (b',', _) => self.expects_name = true,
            _ => {}
        }
    }

    /// A string, from its opening quote on.
    fn string(&mut self, start: usize) -> Found {
        let mut escaped = false;
        let is_end = |byte: &u8| {
            let ends = *byte == b'"' && !escaped;
            escaped = *byte == b'\\' && !escaped;
            ends
        };
        let rest = &self.text[start + 1..];
        let length = rest.iter().position(is_end).unwrap_or(rest.len());
        self.at = (start + 1 + length + 1).min(self.text.len());
        let is_name = std::mem::take(&mut self.expects_name);
        if let (true, Some(step)) = (is_name, self.steps.last_mut()) {
            *step = Step::Member(String::from_utf8_lossy(&rest[..length]).into_owned());
        }
        Found { is_name, bytes: start..self.at }
    }

    /// A number, `true`, `false` or `null`.
    fn word(&mut self, start: usize) -> Found {
        let is_end = |byte: &u8| matches!(byte, b' ' | b'\t' | b'\n' | b'\r' | b',' | b']' | b'}');
        self.at = self.text[start..].iter().position(is_end).map_or(self.text.len(), |length| start + length);
        Found { is_name: false, bytes: start..self.at }
    }

    /// An opening bracket; the steps go down with the next name or value.
    fn open(&mut self, start: usize, first: Step) -> Found {
        self.expects_name = matches!(first, Step::Member(_));
        self.opened = Some(first);
        Found { is_name: false, bytes: start..start + 1 }
    }
}

impl Iterator for Walk<'_> {
    type Item = Found;

    fn next(&mut self) -> Option<Found> {
        self.steps.extend(self.opened.take());
        loop {
            let start = self.at;
            let byte = *self.text.get(start)?;
            self.at += 1;
            match byte {
                b' ' | b'\t' | b'\n' | b'\r' | b':' | b',' | b'}' | b']' => self.pass(byte),
                b'{' => return Some(self.open(start, Step::Member(String::new()))),
                b'[' => return Some(self.open(start, Step::Entry(0))),
                b'"' => return Some(self.string(start)),
                _ => return Some(self.word(start)),
            }
        }
    }
}
