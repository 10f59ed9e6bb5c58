//! JSON texts (RFC 8259) in UTF-8 (RFC 3629) as trees, with the answers 1 to 4.

mod names;
mod numbers;
mod reader;
mod strings;

use crate::answer::Refusal;

/// "text longer than 65,536 bytes" answers 1.
pub const LONGEST_TEXT: usize = 65_536;

/// "An array or object may hold values down to 16 levels."
pub const LEVELS: usize = 16;

/// A JSON value; its parts lie in the text it was read from.
#[derive(Debug, PartialEq)]
pub struct Value<'t> {
    /// The place of its first byte in the text; of a string, that is its opening quote.
    pub place: usize,
    /// What it is.
    pub kind: Kind<'t>,
}

/// The kinds of JSON values.
#[derive(Debug, PartialEq)]
pub enum Kind<'t> {
    /// `null`
    Null,
    /// `true` or `false`
    Boolean(bool),
    /// A number, as it is written.
    Number(&'t [u8]),
    /// A string.
    String(Text<'t>),
    /// An array.
    Array(Vec<Value<'t>>),
    /// An object.
    Object(Object<'t>),
}

/// The bytes of a string between its quotes, escapes kept, and where they start in the text.
#[derive(Clone, Copy, Debug, Default, PartialEq)]
pub struct Text<'t> {
    /// The place of the first byte after the opening quote.
    pub start: usize,
    /// The bytes between the quotes.
    pub raw: &'t [u8],
}

impl Text<'_> {
    /// The place of the opening quote.
    pub fn place(&self) -> usize {
        self.start - 1
    }

    /// Is there a backslash, that is, an escape, in it?
    pub fn has_backslash(&self) -> bool {
        self.raw.contains(&b'\\')
    }
}

/// The members of an object, in the order of the text.
#[derive(Debug, Default, PartialEq)]
pub struct Object<'t> {
    /// The place of its opening brace.
    pub place: usize,
    /// Names and values.
    pub members: Vec<(Text<'t>, Value<'t>)>,
}

impl<'t> Object<'t> {
    /// The value of a member, if there is one of that name.
    pub fn get(&self, name: &str) -> Option<&Value<'t>> {
        self.members.iter().find(|(own, _)| own.raw == name.as_bytes()).map(|(_, value)| value)
    }
}

/// Reads a whole text; refuses with 1 to 4.
pub fn parse(text: &[u8]) -> Result<Value<'_>, Refusal> {
    if text.len() > LONGEST_TEXT {
        return Err(Refusal::TextTooLong);
    }
    // Bytes that are no UTF-8 end what can be the beginning of a JSON text; a 17th level counts only before them.
    let readable = match std::str::from_utf8(text) {
        Ok(_) => text,
        Err(error) => &text[..error.valid_up_to()],
    };
    let (value, lone_surrogate) = reader::read(readable)?;
    if readable.len() < text.len() || lone_surrogate {
        return Err(Refusal::NotJson);
    }
    names::judge(&value)?;
    Ok(value)
}
