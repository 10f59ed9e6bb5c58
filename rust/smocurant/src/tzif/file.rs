//! The layout of a TZif file (RFC 8536, section 3): a block for old readers, the same again with 64-bit times, and a footer.

use super::posix::{self, Rule};
use super::Error;

/// What a file says.
#[derive(Debug, PartialEq)]
pub struct File {
    /// The offset before the first change.
    pub initial_offset: i64,
    /// Instants, and the offsets from then on.
    pub changes: Vec<(i64, i64)>,
    /// What holds behind the last change; no rule where the footer is empty.
    pub rule: Option<Rule>,
}

const HEADER_LENGTH: usize = 44;
const TYPE_LENGTH: usize = 6;

/// The counts of a header.
struct Counts {
    universal: usize,
    standard: usize,
    leap_seconds: usize,
    times: usize,
    types: usize,
    letters: usize,
}

impl Counts {
    /// The length of the block behind the header, with times of so many bytes.
    fn block_length(&self, time: usize) -> usize {
        self.times * (time + 1) + self.types * TYPE_LENGTH + self.letters + self.leap_seconds * (time + 4) + self.standard + self.universal
    }
}

/// Reads a file.
pub fn read(bytes: &[u8]) -> Result<File, Error> {
    let (first, rest) = header(bytes)?;
    let rest = rest.get(first.block_length(4)..).ok_or(Error::Form("it is too short"))?;
    let (counts, rest) = header(rest)?;
    let (block, footer) = rest.split_at_checked(counts.block_length(8)).ok_or(Error::Form("it is too short"))?;
    if counts.leap_seconds > 0 {
        return Err(Error::LeapSeconds);
    }
    let (times, rest) = block.split_at(counts.times * 8);
    let (kinds, rest) = rest.split_at(counts.times);
    let types: Vec<i64> = rest[..counts.types * TYPE_LENGTH].chunks(TYPE_LENGTH).map(|kind| i64::from(number(&kind[..4]) as i32)).collect();
    let initial_offset = *types.first().ok_or(Error::Form("it has no offset"))?;
    let offset = |kind: &u8| types.get(usize::from(*kind)).copied().ok_or(Error::Form("an offset is missing"));
    let instants = times.chunks(8).map(|time| i64::from_be_bytes(time.try_into().expect("eight bytes")));
    let changes = instants.zip(kinds).map(|(instant, kind)| Ok((instant, offset(kind)?))).collect::<Result<Vec<_>, Error>>()?;
    if !changes.windows(2).all(|pair| pair[0].0 < pair[1].0) {
        return Err(Error::Form("its instants do not increase"));
    }
    Ok(File { initial_offset, changes, rule: read_footer(footer)? })
}

/// A header's counts, and what follows it.
fn header(bytes: &[u8]) -> Result<(Counts, &[u8]), Error> {
    let (header, rest) = bytes.split_at_checked(HEADER_LENGTH).ok_or(Error::Form("it is too short"))?;
    if !header.starts_with(b"TZif") {
        return Err(Error::Form("it does not begin with TZif"));
    }
    if header[4] < b'2' {
        return Err(Error::Form("it is of version 1"));
    }
    let count = |place: usize| number(&header[20 + 4 * place..24 + 4 * place]) as usize;
    let counts =
        Counts { universal: count(0), standard: count(1), leap_seconds: count(2), times: count(3), types: count(4), letters: count(5) };
    Ok((counts, rest))
}

/// A big-endian number of four bytes.
fn number(bytes: &[u8]) -> u32 {
    u32::from_be_bytes(bytes.try_into().expect("four bytes"))
}

/// The footer: a rule between two line ends.
fn read_footer(footer: &[u8]) -> Result<Option<Rule>, Error> {
    let wrong = Error::Form("its footer is wrong");
    let Some(rest) = footer.strip_prefix(b"\n") else { return Err(wrong) };
    let Some(end) = rest.iter().position(|byte| *byte == b'\n') else { return Err(wrong) };
    let rule = &rest[..end];
    if rule.is_empty() {
        return Ok(None);
    }
    let rule = std::str::from_utf8(rule).ok().and_then(posix::read);
    rule.map(Some).ok_or(wrong)
}
