//! The grammar of RFC 8259, from left to right: values, arrays and objects.
//!
//! The reader stops at the first byte that no JSON text can have there. So when it opens a level, everything before is the beginning of
//! a JSON text, as answer 2 asks.

use super::{Kind, Object, Text, Value, LEVELS};
use crate::answer::Refusal;

/// Reads a whole text that is known to be UTF-8. Also says whether there was an escaped surrogate without its partner: such a text is
/// JSON by its grammar, so a 17th level further on is still to be found.
pub fn read(text: &[u8]) -> Result<(Value<'_>, bool), Refusal> {
    let mut reader = Reader { text, at: 0, levels_left: LEVELS, lone_surrogate: false };
    reader.skip_space();
    let value = reader.value()?;
    reader.skip_space();
    if reader.at < text.len() {
        return Err(Refusal::NotJson);
    }
    Ok((value, reader.lone_surrogate))
}

/// A place in the text, and what was found up to it.
pub(super) struct Reader<'t> {
    pub(super) text: &'t [u8],
    pub(super) at: usize,
    levels_left: usize,
    pub(super) lone_surrogate: bool,
}

impl<'t> Reader<'t> {
    /// The next byte, if there is one; it is not taken.
    pub(super) fn peek(&self) -> Option<u8> {
        self.text.get(self.at).copied()
    }

    /// Takes the next byte.
    pub(super) fn next(&mut self) -> Result<u8, Refusal> {
        let byte = self.peek().ok_or(Refusal::NotJson)?;
        self.at += 1;
        Ok(byte)
    }

    /// Takes the next byte if it is this one.
    pub(super) fn take(&mut self, byte: u8) -> bool {
        let found = self.peek() == Some(byte);
        self.at += usize::from(found);
        found
    }

    /// Takes this byte, or refuses.
    pub(super) fn expect(&mut self, byte: u8) -> Result<(), Refusal> {
        if self.take(byte) {
            Ok(())
        } else {
            Err(Refusal::NotJson)
        }
    }

    fn skip_space(&mut self) {
        while matches!(self.peek(), Some(b' ' | b'\t' | b'\n' | b'\r')) {
            self.at += 1;
        }
    }

    fn value(&mut self) -> Result<Value<'t>, Refusal> {
        let place = self.at;
        let kind = match self.peek() {
            Some(b'{') => self.deeper(Self::object).map(|members| Kind::Object(Object { place, members })),
            Some(b'[') => self.deeper(Self::array).map(Kind::Array),
            Some(b'"') => self.string().map(Kind::String),
            Some(b'-' | b'0'..=b'9') => self.number().map(Kind::Number),
            Some(b't') => self.literal("true", Kind::Boolean(true)),
            Some(b'f') => self.literal("false", Kind::Boolean(false)),
            Some(b'n') => self.literal("null", Kind::Null),
            _ => Err(Refusal::NotJson),
        };
        kind.map(|kind| Value { place, kind })
    }

    fn literal(&mut self, name: &str, kind: Kind<'t>) -> Result<Kind<'t>, Refusal> {
        if self.text[self.at..].starts_with(name.as_bytes()) {
            self.at += name.len();
            Ok(kind)
        } else {
            Err(Refusal::NotJson)
        }
    }

    /// Opens a level, if one is left, for an array or an object.
    fn deeper<T>(&mut self, read: fn(&mut Self) -> Result<T, Refusal>) -> Result<T, Refusal> {
        self.levels_left = self.levels_left.checked_sub(1).ok_or(Refusal::TooDeep)?;
        self.at += 1;
        let inner = read(self)?;
        self.levels_left += 1;
        Ok(inner)
    }

    fn array(&mut self) -> Result<Vec<Value<'t>>, Refusal> {
        let mut elements = Vec::new();
        self.skip_space();
        if self.take(b']') {
            return Ok(elements);
        }
        loop {
            self.skip_space();
            elements.push(self.value()?);
            self.skip_space();
            if !self.take(b',') {
                self.expect(b']')?;
                return Ok(elements);
            }
        }
    }

    fn object(&mut self) -> Result<Vec<(Text<'t>, Value<'t>)>, Refusal> {
        let mut members = Vec::new();
        self.skip_space();
        if self.take(b'}') {
            return Ok(members);
        }
        loop {
            self.skip_space();
            let name = self.string()?;
            self.skip_space();
            self.expect(b':')?;
            self.skip_space();
            members.push((name, self.value()?));
            self.skip_space();
            if !self.take(b',') {
                self.expect(b'}')?;
                return Ok(members);
            }
        }
    }
}
