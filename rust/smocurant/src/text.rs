//! Titles and descriptions.

use std::fmt;
use std::ops::Range;

/// A part of the caller's text: the bytes of a JSON string between its quotes, escapes kept.
///
/// ```
/// use smocurant::{time, title};
///
/// let event = br#"{"@type": "Event", "uid": "1", "updated": "2024-01-01T00:00:00Z", "start": "2024-02-29T00:00:00", "title": "A\u0026E"}"#;
/// let title = title(event, time::read("2024-02-29").unwrap())?;
/// assert_eq!(title, r"A\u0026E");
/// assert_eq!(title.unescaped(), "A&E");
/// assert_eq!(&event[title.place()], br"A\u0026E");
/// # Ok::<(), smocurant::Status>(())
/// ```
#[derive(Clone, Copy, PartialEq, Eq, Hash)]
pub struct Text<'t> {
    start: usize,
    raw: &'t str,
}

impl<'t> Text<'t> {
    /// A part of a text that the library accepted, which is therefore UTF-8.
    pub(crate) fn new(text: &'t [u8], place: Range<usize>) -> Text<'t> {
        let raw = std::str::from_utf8(&text[place.clone()]).expect("an accepted text is UTF-8, and a string ends between letters");
        Text { start: place.start, raw }
    }

    /// The text as it is written, escapes kept.
    pub fn as_str(&self) -> &'t str {
        self.raw
    }

    /// Is there none?
    pub fn is_empty(&self) -> bool {
        self.raw.is_empty()
    }

    /// Where it stands in the event's text; 0 to 0 where there is none.
    pub fn place(&self) -> Range<usize> {
        self.start..self.start + self.raw.len()
    }

    /// The text that is meant, escapes resolved.
    pub fn unescaped(&self) -> String {
        let mut units: Vec<u16> = Vec::with_capacity(self.raw.len());
        let mut letters = self.raw.chars();
        while let Some(letter) = letters.next() {
            let meant = if letter == '\\' { escaped(&mut letters) } else { letter_units(letter) };
            units.extend(meant);
        }
        String::from_utf16_lossy(&units)
    }
}

/// What an escape stands for; the library accepts no other ones.
fn escaped(letters: &mut std::str::Chars) -> Vec<u16> {
    match letters.next() {
        Some('b') => vec![0x08],
        Some('f') => vec![0x0c],
        Some('n') => vec![0x0a],
        Some('r') => vec![0x0d],
        Some('t') => vec![0x09],
        Some('u') => {
            let digits: String = letters.take(4).collect();
            vec![u16::from_str_radix(&digits, 16).unwrap_or(0xfffd)]
        }
        other => other.map_or_else(Vec::new, letter_units),
    }
}

fn letter_units(letter: char) -> Vec<u16> {
    letter.encode_utf16(&mut [0; 2]).to_vec()
}

impl fmt::Display for Text<'_> {
    fn fmt(&self, out: &mut fmt::Formatter) -> fmt::Result {
        out.write_str(&self.unescaped())
    }
}

impl fmt::Debug for Text<'_> {
    fn fmt(&self, out: &mut fmt::Formatter) -> fmt::Result {
        write!(out, "\"{}\" at {}", self.raw, self.start)
    }
}

impl AsRef<str> for Text<'_> {
    fn as_ref(&self) -> &str {
        self.raw
    }
}

impl PartialEq<str> for Text<'_> {
    fn eq(&self, other: &str) -> bool {
        self.raw == other
    }
}

impl PartialEq<&str> for Text<'_> {
    fn eq(&self, other: &&str) -> bool {
        self.raw == *other
    }
}

#[cfg(test)]
mod tests {
    use super::*;

    #[test]
    fn escapes() {
        let text = r#"a\n\"\\\/\u00e4 \ud83d\ude00ß"#;
        assert_eq!(Text::new(text.as_bytes(), 0..text.len()).unescaped(), "a\n\"\\/ä 😀ß");
        assert_eq!(Text::new(b"xabcx", 1..4).place(), 1..4);
    }
}
