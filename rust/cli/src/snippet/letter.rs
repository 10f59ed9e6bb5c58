//! A letter as a terminal shows it.

/// Columns of a tab.
const TAB: usize = 4;

/// What stands for a letter that could steer the terminal, or that has no column of its own.
const REPLACEMENT: char = '\u{fffd}';

/// Ranges of letters that take two columns: those of East Asian scripts, and pictures.
const WIDE: [(char, char); 12] = [
    ('\u{1100}', '\u{115f}'),
    ('\u{2e80}', '\u{303e}'),
    ('\u{3041}', '\u{a4cf}'),
    ('\u{a960}', '\u{a97f}'),
    ('\u{ac00}', '\u{d7a3}'),
    ('\u{f900}', '\u{faff}'),
    ('\u{fe30}', '\u{fe6f}'),
    ('\u{ff01}', '\u{ff60}'),
    ('\u{ffe0}', '\u{ffe6}'),
    ('\u{1f300}', '\u{1f64f}'),
    ('\u{1f680}', '\u{1faff}'),
    ('\u{20000}', '\u{3fffd}'),
];

/// What is written for a letter.
pub fn shown(letter: char) -> String {
    match letter {
        '\t' => " ".repeat(TAB),
        _ if is_printable(letter) => letter.to_string(),
        _ => REPLACEMENT.to_string(),
    }
}

/// The columns that this takes.
pub fn width(letter: char) -> usize {
    match letter {
        '\t' => TAB,
        _ if is_printable(letter) && is_wide(letter) => 2,
        _ => 1,
    }
}

fn is_wide(letter: char) -> bool {
    WIDE.iter().any(|(first, last)| (*first..=*last).contains(&letter))
}

/// Is it shown in a column of its own? Control characters, marks of direction and accents that stand over another letter are not.
fn is_printable(letter: char) -> bool {
    matches!(letter, '"' | '\'' | '\\') || letter.escape_debug().len() == 1
}
