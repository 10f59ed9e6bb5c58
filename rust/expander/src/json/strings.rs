//! Strings: control characters, escapes and escaped surrogates. That the text is UTF-8 is known before.

use super::reader::Reader;
use super::Text;
use crate::answer::Refusal;

impl<'t> Reader<'t> {
    /// A string, with its quotes.
    pub(super) fn string(&mut self) -> Result<Text<'t>, Refusal> {
        self.expect(b'"')?;
        let start = self.at;
        let mut leading_before = false;
        loop {
            let byte = self.next()?;
            let unit = match byte {
                b'\\' => self.escape()?,
                0..=0x1f => return Err(Refusal::NotJson),
                _ => None,
            };
            // A trailing surrogate stands exactly after each leading one.
            self.lone_surrogate |= leading_before != matches!(unit, Some(0xdc00..=0xdfff));
            leading_before = matches!(unit, Some(0xd800..=0xdbff));
            if byte == b'"' {
                return Ok(Text { start, raw: &self.text[start..self.at - 1] });
            }
        }
    }

    /// What follows a backslash; the code unit of a `\u` escape.
    fn escape(&mut self) -> Result<Option<u16>, Refusal> {
        match self.next()? {
            b'"' | b'\\' | b'/' | b'b' | b'f' | b'n' | b'r' | b't' => Ok(None),
            b'u' => {
                let mut unit = 0;
                for _ in 0..4 {
                    let digit = char::from(self.next()?).to_digit(16).ok_or(Refusal::NotJson)?;
                    unit = unit * 16 + digit as u16;
                }
                Ok(Some(unit))
            }
            _ => Err(Refusal::NotJson),
        }
    }
}
