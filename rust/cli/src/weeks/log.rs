//! The log of uploads: an instant a line.

use super::rfc3339;
use crate::failure::Failure;
use smocurant::time;
use std::fs;
use std::io::{self, Read};

/// What Windows programs put before a text.
const BYTE_ORDER_MARK: &[u8] = b"\xef\xbb\xbf";

/// A wrong line is shown up to so many letters.
const MOST_SHOWN: usize = 40;

/// Instants in seconds from 1970-01-01T00:00:00Z, and where each stood.
#[derive(Default)]
pub struct Log {
    instants: Vec<i64>,
    lines: Vec<Line>,
    names: Vec<String>,
}

/// A line of one of the files.
#[derive(Clone, Copy)]
struct Line {
    file: usize,
    number: usize,
}

impl Log {
    /// Reads the files one after the other. They are sorted only where that is asked for.
    pub fn read(files: &[String], sort: bool) -> Result<Log, Failure> {
        let mut log = Log::default();
        for file in files {
            let bytes = bytes(file).map_err(|error| Failure::Wrong(format!("--log {file}: cannot be read: {error}")))?;
            log.add(file, &bytes).map_err(Failure::Wrong)?;
        }
        if sort {
            log.instants.sort_unstable();
        }
        Ok(log)
    }

    /// The instants.
    pub fn instants(&self) -> &[i64] {
        &self.instants
    }

    /// Says where a log is out of order: the instant at a place is earlier than the one before it.
    pub fn disorder(&self, place: usize) -> String {
        let (line, before) = (self.lines[place], self.lines[place - 1]);
        let other_file = if line.file == before.file { String::new() } else { format!("{}, ", self.names[before.file]) };
        let (instant, instant_before) = (written(self.instants[place]), written(self.instants[place - 1]));
        format!(
            "{}, line {}: {instant} is earlier than {instant_before} in {other_file}line {}; --sort puts the log in order first",
            self.names[line.file], line.number, before.number
        )
    }

    /// Adds the lines of a file.
    fn add(&mut self, name: &str, bytes: &[u8]) -> Result<(), String> {
        let file = self.names.len();
        let name = if name == "-" { "standard input" } else { name };
        self.names.push(name.to_string());
        let bytes = bytes.strip_prefix(BYTE_ORDER_MARK).unwrap_or(bytes);
        for (number, line) in (1..).zip(bytes.split(|byte| *byte == b'\n')) {
            let line = line.trim_ascii();
            if line.is_empty() || line.starts_with(b"#") {
                continue;
            }
            let wrong = || format!("{name}, line {number}: {} is no instant such as 2026-01-05T08:00:00Z or 1767600000", quoted(line));
            self.instants.push(instant(line).ok_or_else(wrong)?);
            self.lines.push(Line { file, number });
        }
        Ok(())
    }
}

fn bytes(file: &str) -> io::Result<Vec<u8>> {
    if file != "-" {
        return fs::read(file);
    }
    let mut bytes = Vec::new();
    io::stdin().lock().read_to_end(&mut bytes)?;
    Ok(bytes)
}

/// The instant that a line says.
fn instant(line: &[u8]) -> Option<i64> {
    let text = std::str::from_utf8(line).ok()?;
    text.parse().ok().or_else(|| rfc3339::read(text))
}

/// An instant in a message: its date, if it has one of four digits.
fn written(instant: i64) -> String {
    const YEARS: std::ops::Range<i64> = -62_167_219_200..253_402_300_800;
    if YEARS.contains(&instant) {
        time::written(instant) + "Z"
    } else {
        instant.to_string()
    }
}

/// A line in a message: in quotes, not too long, and without letters that steer the terminal.
fn quoted(line: &[u8]) -> String {
    let text = String::from_utf8_lossy(line);
    let mut shown: String = text.chars().take(MOST_SHOWN).map(|letter| if letter.is_control() { ' ' } else { letter }).collect();
    if text.chars().nth(MOST_SHOWN).is_some() {
        shown.push_str("...");
    }
    format!("\"{shown}\"")
}

#[cfg(test)]
mod tests {
    use super::*;

    fn log(bytes: &[u8]) -> Result<Vec<i64>, String> {
        let mut log = Log::default();
        log.add("a.log", bytes).map(|()| log.instants)
    }

    #[test]
    fn lines() {
        assert_eq!(log(b""), Ok(vec![]));
        assert_eq!(log(b"# uploads\n\n-5\n +7\t\r\n   \r\n1970-01-01T00:00:09Z"), Ok(vec![-5, 7, 9]));
        assert_eq!(log(b"\xef\xbb\xbf# uploads\r\n1\r\n"), Ok(vec![1]));
        assert_eq!(log(b"9223372036854775807\n-9223372036854775808\n"), Ok(vec![i64::MAX, i64::MIN]));
    }

    #[test]
    fn wrong_lines() {
        let reason = |line: &str| format!("a.log, line 2: {line} is no instant such as 2026-01-05T08:00:00Z or 1767600000");
        for wrong in ["x", "1.5", "1 2", "9223372036854775808", "2026-01-05", "2026-01-05T08:00:00"] {
            assert_eq!(log(format!("1\n{wrong}\n3\n").as_bytes()), Err(reason(&format!("\"{wrong}\""))));
        }
        assert_eq!(log(b"1\n\x1b[2J\xff\n"), Err(reason("\" [2J\u{fffd}\"")));
        assert_eq!(log(format!("1\n{}\n", "9".repeat(50)).as_bytes()), Err(reason(&format!("\"{}...\"", "9".repeat(40)))));
    }

    #[test]
    fn where_it_is_out_of_order() {
        let mut log = Log::default();
        log.add("a.log", b"# first\n5\n\n4\n").unwrap();
        log.add("-", b"3\n-9223372036854775808").unwrap();
        let hint = "--sort puts the log in order first";
        assert_eq!(log.disorder(1), format!("a.log, line 4: 1970-01-01T00:00:04Z is earlier than 1970-01-01T00:00:05Z in line 2; {hint}"));
        assert_eq!(
            log.disorder(2),
            format!("standard input, line 1: 1970-01-01T00:00:03Z is earlier than 1970-01-01T00:00:04Z in a.log, line 4; {hint}")
        );
        assert!(log.disorder(3).starts_with("standard input, line 2: -9223372036854775808 is earlier"));
    }
}
