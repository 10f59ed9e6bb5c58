//! Prints the texts of seeded cases in hexadecimal digits, one a line: `texts FIRST COUNT`.

use std::io::{self, BufWriter, Write};

fn main() -> io::Result<()> {
    let mut numbers = std::env::args().skip(1).map(|number| number.parse::<u64>().expect("texts FIRST COUNT"));
    let (first, count) = (numbers.next().unwrap_or(0), numbers.next().unwrap_or(1_000));
    let mut out = BufWriter::new(io::stdout().lock());
    for seed in first..first + count {
        let digits: String = generator::Case::new(seed).text.iter().map(|byte| format!("{byte:02x}")).collect();
        writeln!(out, "{digits}")?;
    }
    out.flush()
}
