//! Expands events: reads from standard input, one case a line, a text in hexadecimal digits and a window's two local second counts, and
//! prints the recurrence ids in the window, privacy left aside. A text that is refused prints its answer number behind a minus sign.
//!
//!     echo "$(xxd -p event.json | tr -d '\n') 1704067200 1735689600" | cargo run --example ids

use expander::Event;
use std::io::{self, BufRead, BufWriter, Write};

fn main() -> io::Result<()> {
    let mut out = BufWriter::new(io::stdout().lock());
    for line in io::stdin().lock().lines() {
        let shown = ids(&line?).ok_or(io::ErrorKind::InvalidData)?;
        writeln!(out, "{shown}")?;
    }
    out.flush()
}

fn ids(line: &str) -> Option<String> {
    let mut parts = line.split_whitespace();
    let text = bytes(parts.next()?)?;
    let window = parts.next()?.parse().ok()?..parts.next()?.parse().ok()?;
    Some(match Event::read(&text) {
        Err(refusal) => format!("-{}", refusal.number()),
        Ok(event) => event.ids(window).iter().map(i64::to_string).collect::<Vec<_>>().join(" "),
    })
}

/// The bytes of hexadecimal digits.
fn bytes(digits: &str) -> Option<Vec<u8>> {
    let digit = |byte: u8| char::from(byte).to_digit(16);
    digits.as_bytes().chunks(2).map(|pair| Some((digit(pair[0])? * 16 + digit(*pair.get(1)?)?) as u8)).collect()
}
