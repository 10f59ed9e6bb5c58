//! Stored sheets, as the program shows them again.

mod support;

use std::path::{Path, PathBuf};
use support::{folder, run, with_input};

/// The worked sheet of document 01.
const WORKED: [u8; 40] = [
    0xd0, 0xa5, 0x5c, 0x5a, 0, 0, 0, 0, 0x20, 0xec, 0x5c, 0x5a, 0, 0, 0, 0, 0x30, 0xfa, 0x5c, 0x5a, 0, 0, 0, 0, 0x01, 0, 0, 0, //
    0x1c, 0, 1, 0, 1, 0, 0, 0, 0x1c, 0, 0, 0,
];

/// The listing of an example in a form, in 2026.
fn listed(events: &[&str], format: &str, more: &[&str]) -> String {
    let zone = ["--zones", "zones", "--zone", "Europe/London", "--floating", "--year", "2026", "--format", format];
    let (code, out, errors) = run(&[&zone[..], events, more].concat());
    assert_eq!((code, errors.as_str()), (0, ""));
    out
}

/// A file with the sheets of some examples.
fn stored(folder: &Path, events: &[&str]) -> PathBuf {
    let file = folder.join("sheet");
    listed(events, "raw", &["--output", file.to_str().unwrap()]);
    file
}

/// What is listed is what is stored, without the titles.
#[test]
fn as_listed() {
    let folder = folder("as_listed");
    for event in
        ["events/theatre-lists.json", "events/private-appointment.json", "events/secret-audit.json", "closures/christmas-closure.json"]
    {
        let file = stored(&folder, &[event]);
        let name = file.to_str().unwrap();
        let (code, out, errors) = run(&["sheet", "--format", "csv", name]);
        assert_eq!((code, errors.as_str()), (0, ""));
        let listed = listed(&[event], "csv", &[]);
        let times = |line: &str| line.split(',').skip(1).take(6).map(str::to_string).collect::<Vec<_>>();
        assert_eq!(out.lines().map(times).collect::<Vec<_>>(), listed.lines().map(times).collect::<Vec<_>>(), "{event}");
        assert!(out.lines().skip(1).all(|line| line.starts_with(name) && line.split(',').count() == 7), "{out}");
    }
}

#[test]
fn forms() {
    let ask = |arguments: &[&str]| with_input(&WORKED, &[&["sheet", "-"], arguments].concat());
    let table = "-: 1 occurrence\n  Local id             UTC start             UTC end               Marks\n  \
                 2018-01-15T13:00:00  2018-01-15T18:00:00Z  2018-01-15T19:00:00Z  busy\n";
    assert_eq!(ask(&[]), (0, table.to_string(), String::new()));
    assert_eq!(ask(&["--format", "table", "--quiet"]).1, table);
    let csv = "file,id,start,end,busy,all_day,floating\n-,2018-01-15T13:00:00,2018-01-15T18:00:00Z,2018-01-15T19:00:00Z,true,false,false\n";
    assert_eq!(ask(&["--format=csv"]).1, csv);
    let json = r#"{"file":"-","id":"2018-01-15T13:00:00","start":"2018-01-15T18:00:00Z","end":"2018-01-15T19:00:00Z","busy":true,"allDay":false,"floating":false}"#;
    assert_eq!(ask(&["--format", "jsonl"]).1, format!("{json}\n"));
    assert_eq!(with_input(&[0x1c, 0, 1, 0, 0, 0, 0, 0, 0, 0, 0, 0], &["sheet", "-"]).1, "-: no occurrences\n");
}

/// Any numbers that a sheet may have can be shown.
#[test]
fn the_ends_of_all_numbers() {
    let mut sheet = WORKED;
    for (place, number) in [(0, i64::MIN), (8, i64::MAX), (16, i64::MIN)] {
        sheet[place..place + 8].copy_from_slice(&number.to_le_bytes());
    }
    let (code, out, _) = with_input(&sheet, &["sheet", "-", "--format", "csv"]);
    assert_eq!(code, 0);
    assert!(out.contains("292277026596-12-04T15:30:07Z"), "{out}");
}

#[test]
fn refused_sheets() {
    let twice = [&WORKED[..28], &WORKED[..28], &[0x1c, 0, 1, 0, 2, 0, 0, 0, 0x38, 0, 0, 0]].concat();
    let changed = |place: usize, byte: u8| {
        let mut sheet = WORKED.to_vec();
        sheet[place] = byte;
        sheet
    };
    let cases = [
        (34, WORKED[29..].to_vec(), "too short"),
        (35, changed(30, 2), "version"),
        (36, changed(28, 29), "size"),
        (37, changed(32, 2), "does not fit"),
        (38, twice, "out of order"),
        (39, changed(24, 8), "marks"),
        (40, changed(27, 1), "zeros"),
    ];
    for (number, sheet, word) in cases {
        let (code, out, errors) = with_input(&sheet, &["sheet", "-"]);
        assert_eq!((code, out.as_str()), (1, ""), "{number}");
        assert!(errors.starts_with(&format!("smocurant: -: refused with {number}: ")) && errors.contains(word), "{errors}");
    }
}

/// Sheets one after another are not one sheet. The others that are named are still shown.
#[test]
fn several_sheets() {
    let (one, both) = (folder("one_sheet"), folder("both_sheets"));
    let one = stored(&one, &["events/private-appointment.json"]);
    let both = stored(&both, &["events/private-appointment.json", "closures/christmas-closure.json"]);
    let (code, out, errors) = run(&["sheet", both.to_str().unwrap(), one.to_str().unwrap(), "nowhere.sheet"]);
    assert_eq!((code, out.lines().next().unwrap()), (1, format!("{}: 6 occurrences", one.display()).as_str()));
    assert!(errors.contains("refused with 37: ") && errors.contains("A file must have one sheet"), "{errors}");
    assert!(errors.contains("nowhere.sheet: cannot be read: "), "{errors}");
}

/// A sheet is longer than any text may be.
#[test]
fn a_long_sheet() {
    let folder = folder("long_sheet");
    let (event, sheet) = (folder.join("daily.json"), folder.join("sheet"));
    let text = r#"{"@type": "Event", "uid": "1", "updated": "2026-01-01T00:00:00Z", "start": "2026-01-01T00:00:00",
        "recurrenceRules": [{"@type": "RecurrenceRule", "frequency": "daily", "count": 10000}]}"#;
    std::fs::write(&event, text).unwrap();
    let [event, sheet] = [&event, &sheet].map(|path| path.to_str().unwrap());
    assert_eq!(run(&["--floating", "--always", "--format", "raw", "--output", sheet, event]).0, 0);
    let (code, out, _) = run(&["sheet", sheet]);
    assert_eq!((code, out.lines().count()), (0, 10_002));
    assert!(out.ends_with("2053-05-18T00:00:00  2053-05-18T00:00:00   2053-05-18T00:00:00   busy floating\n"), "{out}");
}

#[test]
fn options() {
    let (code, out, _) = run(&["sheet", "--help"]);
    assert_eq!(code, 0);
    for word in ["SHEET", "--format", "--output", "--quiet", "34 to 40", "Exit codes"] {
        assert!(out.contains(word), "{word}");
    }
    let cases: [(&[&str], &str); 4] = [
        (&["sheet"], "name a sheet's file"),
        (&["sheet", "a", "--format", "raw"], "\"raw\" is no format; there are table, csv and jsonl"),
        (&["sheet", "a", "--zone", "Europe/London"], "there is no option --zone"),
        (&["sheet", "a", "--format"], "--format needs a value"),
    ];
    for (arguments, expected) in cases {
        let (code, out, errors) = run(arguments);
        assert_eq!((code, out.as_str()), (2, ""), "{arguments:?}");
        assert!(errors.contains(expected) && errors.contains("smocurant sheet --help"), "{arguments:?}: {errors}");
    }
}

#[test]
fn output_that_cannot_be_written() {
    let (code, _, errors) = run(&["sheet", "any.sheet", "--output", "/nowhere/at/all"]);
    assert_eq!(code, 3);
    assert!(errors.contains("/nowhere/at/all cannot be written"), "{errors}");
}
