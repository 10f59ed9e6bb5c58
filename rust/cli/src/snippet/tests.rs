//! Lines and carets, as they are printed.

use super::*;
use smocurant::MemberPath;

/// The lines of a text whose value is marked by `^` before it and by `$` after it, if it does not end with its first letter.
fn shown(marked: &str) -> [String; 2] {
    let byte = marked.find('^').unwrap();
    let after = marked.replacen('^', "", 1);
    let length = after.find('$').map_or(1, |end| end - byte);
    let text = after.replacen('$', "", 1);
    let before = &text[..byte];
    let line = before.matches('\n').count() + 1;
    let column = before.rsplit('\n').next().unwrap().chars().count() + 1;
    lines(text.as_bytes(), &Place { byte, length, line, column, path: MemberPath::default(), is_public: true })
}

#[test]
fn short_lines() {
    assert_eq!(shown("{\n  \"start\": ^1$,\n}"), ["  2 |   \"start\": 1,", "    |            ^"]);
    assert_eq!(shown("{\"uid\": ^\"\"$}"), ["  1 | {\"uid\": \"\"}", "    |         ^^"]);
    assert_eq!(shown("\n\n\n\n\n\n\n\n\n[^null$]  "), ["  10 | [null]", "     |  ^^^^"]);
    assert_eq!(shown("{\"byDay\": ^[\n]}"), ["  1 | {\"byDay\": [", "    |           ^"]);
    assert_eq!(shown("^{}"), ["  1 | {}", "    | ^"]);
}

#[test]
fn line_ends_are_not_shown() {
    assert_eq!(shown("{\r\n\"a\": ^1$\r\n}\r\n"), ["  2 | \"a\": 1", "    |      ^"]);
    // A return alone is no end of a line, and cannot send the cursor back.
    assert_eq!(shown("{\r\"a\": ^1$\r}"), ["  1 | {\u{fffd}\"a\": 1\u{fffd}}", "    |        ^"]);
}

#[test]
fn tabs_take_four_columns() {
    assert_eq!(shown("\t\t\"a\":\t^10$\t,"), ["  1 |         \"a\":    10    ,", "    |                 ^^"]);
}

#[test]
fn letters_of_one_column_and_of_two() {
    assert_eq!(shown("[\"äß€\", ^1$]"), ["  1 | [\"äß€\", 1]", "    |         ^"]);
    // Each of these takes two columns, so a caret more for each in the value.
    assert_eq!(shown("[\"手術😀\", ^\"閉x\"$]"), ["  1 | [\"手術😀\", \"閉x\"]", "    |            ^^^^^"]);
}

/// Nothing of a text steers the terminal or stands without a column.
#[test]
fn control_characters() {
    let [line, carets] = shown("[\"\u{7f}\u{9b}31m\u{202e}\u{200b}e\u{301}\u{2028}\", ^1$]");
    assert_eq!(line, "  1 | [\"\u{fffd}\u{fffd}31m\u{fffd}\u{fffd}e\u{fffd}\u{fffd}\", 1]");
    assert_eq!(carets, "    | ".to_string() + &" ".repeat(15) + "^");
}

/// The columns of a line after its gutter, and those of its carets.
fn columns([line, carets]: [String; 2]) -> (String, Range<usize>) {
    let carets = carets.strip_prefix("    | ").unwrap().to_string();
    (line.strip_prefix("  1 | ").unwrap().to_string(), carets.find('^').unwrap()..carets.len())
}

#[test]
fn long_lines_are_cut() {
    for before in (0..200).chain([65_000]) {
        for after in [0, 1, 30, 39, 40, 41, 200] {
            let marked = format!("{}^\"value\"${}", "a".repeat(before), "b".repeat(after));
            let (line, carets) = columns(shown(&marked));
            assert_eq!(&line[carets.clone()], "\"value\"", "{before} and {after}");
            let is_whole = before + 7 + after <= MOST;
            assert!(is_whole && line.len() == before + 7 + after || !is_whole && line.len() <= MOST + 2 * CUT.len(), "{line}");
            assert_eq!(!is_whole, line.contains(CUT), "{line}");
            assert!(carets.start <= before + CUT.len() && carets.start >= BEFORE.min(before), "{line}");
        }
    }
}

/// A value that is itself longer than the window, and letters of two columns at both of its ends.
#[test]
fn long_values_are_cut() {
    let (line, carets) = columns(shown(&format!("{}^\"{}\"$", "a".repeat(50), "b".repeat(300))));
    assert_eq!((line.len(), carets), (CUT.len() + MOST + CUT.len(), CUT.len() + BEFORE..CUT.len() + MOST));
    for before in 0..60 {
        let marked = format!("{}{}^1${}", "x".repeat(before % 2), "閉".repeat(before), "閉".repeat(60));
        let (line, carets) = columns(shown(&marked));
        let place = line.chars().position(|letter| letter == '1').unwrap();
        let width: usize = line.chars().take(place).map(letter::width).sum();
        assert_eq!(carets, width..width + 1, "{before}");
    }
}
