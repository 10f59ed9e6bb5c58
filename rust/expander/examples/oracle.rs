//! Judges texts: reads one text a line from standard input, in hexadecimal digits, and prints the answer number of each and the place of
//! what was wrong, which is 0 for every number but 20 to 26.
//!
//!     printf '{}' | xxd -p | cargo run --example oracle

use std::io::{self, BufRead, BufWriter, Write};

fn main() -> io::Result<()> {
    let mut out = BufWriter::new(io::stdout().lock());
    for line in io::stdin().lock().lines() {
        let text = bytes(&line?).ok_or(io::ErrorKind::InvalidData)?;
        let (answer, place) = expander::locate(&text);
        writeln!(out, "{answer} {place}")?;
    }
    out.flush()
}

/// The bytes of hexadecimal digits.
fn bytes(digits: &str) -> Option<Vec<u8>> {
    let digit = |byte: u8| char::from(byte).to_digit(16);
    let pairs = digits.trim().as_bytes().chunks(2);
    pairs.map(|pair| Some((digit(pair[0])? * 16 + digit(*pair.get(1)?)?) as u8)).collect()
}
