//! Numbers: `[minus] int [frac] [exp]` of RFC 8259, section 6.

use super::reader::Reader;
use crate::answer::Refusal;

impl<'t> Reader<'t> {
    /// A number, as it is written.
    pub(super) fn number(&mut self) -> Result<&'t [u8], Refusal> {
        let start = self.at;
        self.take(b'-');
        if !self.take(b'0') {
            self.digits()?;
        }
        if self.take(b'.') {
            self.digits()?;
        }
        if self.take(b'e') || self.take(b'E') {
            let _ = self.take(b'+') || self.take(b'-');
            self.digits()?;
        }
        Ok(&self.text[start..self.at])
    }

    /// One digit or more.
    fn digits(&mut self) -> Result<(), Refusal> {
        let start = self.at;
        while matches!(self.peek(), Some(b'0'..=b'9')) {
            self.at += 1;
        }
        if self.at == start {
            return Err(Refusal::NotJson);
        }
        Ok(())
    }
}
