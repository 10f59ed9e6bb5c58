//! A line of a text with carets under a value, as compilers show it.

mod letter;
#[cfg(test)]
mod tests;

use smocurant::Place;
use std::ops::Range;

/// So many columns of a line are shown at most.
const MOST: usize = 72;

/// So many of them stand before the value, where a line is cut.
const BEFORE: usize = 32;

/// What stands where a line is cut.
const CUT: &str = "...";

/// The line of a place, and the carets under it.
pub fn lines(text: &[u8], place: &Place) -> [String; 2] {
    let line = Line::new(&line_of(text, place.byte));
    // Names and values do not go on over the end of a line.
    let value = place.column - 1..place.column - 1 + letters(&text[place.bytes()]);
    let shown = line.window(value.start);
    let [front, back] = [shown.start > 0, shown.end < line.letters.len()].map(|is_cut| if is_cut { CUT } else { "" });
    let indent = front.len() + line.width(shown.start..value.start);
    let carets = "^".repeat(line.width(value.start..value.end.min(shown.end)));
    let number = place.line.to_string();
    let words: String = line.letters[shown].iter().map(|letter| letter::shown(*letter)).collect();
    [
        format!("  {number} | {front}{words}{back}").trim_end().to_string(),
        format!("  {:gutter$} | {:indent$}{carets}", "", "", gutter = number.len()),
    ]
}

/// The line of a byte, without its end.
fn line_of(text: &[u8], byte: usize) -> String {
    let is_end = |byte: &u8| *byte == b'\n';
    let start = text[..byte].iter().rposition(is_end).map_or(0, |end| end + 1);
    let end = text[byte..].iter().position(is_end).map_or(text.len(), |length| byte + length);
    let line = String::from_utf8_lossy(&text[start..end]);
    line.strip_suffix('\r').unwrap_or(&line).to_string()
}

/// The number of letters in some bytes.
fn letters(bytes: &[u8]) -> usize {
    String::from_utf8_lossy(bytes).chars().count()
}

/// A line, letter by letter.
struct Line {
    letters: Vec<char>,
    /// The column at which each letter begins, and at last the one after them.
    columns: Vec<usize>,
}

impl Line {
    fn new(line: &str) -> Line {
        let letters: Vec<char> = line.chars().collect();
        let mut columns = vec![0];
        columns.extend(letters.iter().scan(0, |column, letter| {
            *column += letter::width(*letter);
            Some(*column)
        }));
        Line { letters, columns }
    }

    /// The columns that some of the letters take.
    fn width(&self, letters: Range<usize>) -> usize {
        self.columns[letters.end] - self.columns[letters.start]
    }

    /// The letters that are shown: all, or as many as there is room for around one of them.
    fn window(&self, around: usize) -> Range<usize> {
        let all = self.width(0..self.letters.len());
        if all <= MOST {
            return 0..self.letters.len();
        }
        let from = self.columns[around].saturating_sub(BEFORE).min(all - MOST);
        let start = self.columns.partition_point(|column| *column < from);
        let end = self.columns.partition_point(|column| *column <= from + MOST) - 1;
        start..end
    }
}
