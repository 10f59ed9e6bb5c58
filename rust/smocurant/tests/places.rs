//! Which value was wrong, and where: the library against the independent expander, on events with wrong values in them. Their number and place
//! are also known by how they were made.
//!
//! There are 20,000 cases, or more if `SMOCURANT_CASES` says so, from the seed `SMOCURANT_SEED` on, or else from 0.

mod support;
use expander::json::{self, Kind, Value};
use generator::{Case, WrongText};
use smocurant::{locate, raw, Fault, Place, Status};
use support::{filled, in_parallel, library, seeds, shown, GUARD};

#[test]
fn numbers_and_places() {
    in_parallel(|seeds| {
        for seed in seeds {
            let wrong = WrongText::new(seed);
            let known = (wrong.answer, wrong.place);
            let (own, expected) = (raw::locate(&wrong.text), expander::locate(&wrong.text));
            assert!(own == known && expected == known, "seed {seed}: {own:?} and {expected:?}, not {known:?}: {}", shown(&wrong.text));
            compare_calls(seed, &wrong);
        }
    });
}

/// The other calls give the number, and nothing else.
fn compare_calls(seed: u64, wrong: &WrongText) {
    let case = Case { text: wrong.text.clone(), ..Case::new(seed) };
    let (before, after) = (filled(1_000 + 2 * GUARD, seed), library(&case, 1_000, seed));
    assert!((after.answer, after.length) == (wrong.answer, 0) && after.bytes == before, "seed {seed}: {}", shown(&wrong.text));
    for date in case.dates {
        let words = [raw::title(&wrong.text, date), raw::description(&wrong.text, date)];
        assert_eq!(words, [(wrong.answer, 0, 0); 2], "seed {seed}: {}", shown(&wrong.text));
    }
}

/// The path of the value or override name that begins at a place, by the expander's tree.
fn path(value: &Value, place: usize) -> Option<String> {
    if value.place == place {
        return Some(String::new());
    }
    match &value.kind {
        Kind::Array(entries) => entries.iter().enumerate().find_map(|(number, entry)| Some(format!("[{number}]{}", path(entry, place)?))),
        Kind::Object(object) => object.members.iter().find_map(|(name, value)| {
            let way = if name.place() == place { String::new() } else { path(value, place)? };
            let name = std::str::from_utf8(name.raw).unwrap();
            let is_word = name.bytes().all(|byte| byte.is_ascii_alphabetic() || byte == b'@');
            Some(if is_word && name.len() > 1 { format!(".{name}{way}") } else { format!("[{name:?}]{way}") })
        }),
        _ => None,
    }
}

/// Line and column by going through the characters.
fn line_and_column(before: &str) -> (usize, usize) {
    before.chars().fold((1, 1), |(line, column), letter| if letter == '\n' { (line + 1, 1) } else { (line, column + 1) })
}

#[test]
fn paths_lines_and_columns() {
    for seed in seeds() {
        let text = WrongText::new(seed).text;
        let Err(Fault { status, place: Some(place) }) = locate(&text) else { panic!("seed {seed}: no place") };
        assert!(status.is_wrong_value(), "seed {seed}");
        let expected = path(&json::parse(&text).unwrap(), place.byte).unwrap();
        assert_eq!(place.path.to_string(), expected.trim_start_matches('.'), "seed {seed}: {}", shown(&text));
        let before = std::str::from_utf8(&text[..place.byte]).unwrap();
        assert_eq!((place.line, place.column), line_and_column(before), "seed {seed}");
        assert!(is_whole(&text, &place), "seed {seed}: {place:?}");
    }
}

/// Are the bytes of a place one name or value, or an opening bracket?
fn is_whole(text: &[u8], place: &Place) -> bool {
    let bytes = &text[place.bytes()];
    matches!(bytes, b"[" | b"{") || json::parse(bytes).is_ok()
}

/// Whatever bytes come in, the crate's call says what the exported one does; a place is there for 20 to 26 alone.
#[test]
fn the_crates_call() {
    for seed in seeds() {
        let text = Case::new(seed).text;
        let (answer, byte) = raw::locate(&text);
        let (status, place) = locate(&text).map_or_else(|fault| (fault.status, fault.place), |()| (Status::Done, None));
        assert_eq!(status.number(), answer, "seed {seed}");
        assert_eq!(place.map(|place| place.byte as u64), (20..=26).contains(&answer).then_some(byte), "seed {seed}");
    }
}
