//! The program as its users run it, on the shipped examples.

mod support;

use support::{folder, run, with_input};

/// The shipped zones, so that the tests ask for nothing of the system.
const LONDON: [&str; 6] = ["--zones", "zones", "--zone", "Europe/London", "--year", "2026"];

#[test]
fn the_examples() {
    let (code, out, errors) = run(&[&LONDON[..], &["events", "closures"]].concat());
    assert_eq!((code, errors.as_str()), (0, ""));
    assert!(out.contains("events/theatre-lists.json: 137 occurrences"), "{out}");
    assert!(out.contains("2026-07-01T08:00:00  2026-07-01T07:00:00Z  2026-07-01T11:30:00Z  busy"), "{out}");
    assert!(out.contains("2026-05-25T08:00:00  2026-05-26T07:00:00Z"), "{out}");
    // A day over the March clock change ends at the next midnight, after 23 hours.
    assert!(out.contains("2026-03-29T00:00:00  2026-03-29T00:00:00Z  2026-03-29T23:00:00Z  busy all-day"), "{out}");
    assert!(out.contains("events/secret-audit.json: no occurrences"));
    for hidden in ["clinic", "audit:", "Unannounced", "Inspection"] {
        assert!(!out.contains(hidden), "{hidden}");
    }
}

#[test]
fn csv() {
    let (code, out, _) = run(&["closures/christmas-closure.json", "--floating", "--from=2025-12-01", "--to=2027-01-01", "--format=csv"]);
    assert_eq!(code, 0);
    assert_eq!(
        out,
        "file,id,start,end,busy,all_day,floating,title\n\
         closures/christmas-closure.json,2025-12-24T00:00:00,2025-12-24T00:00:00,2026-01-02T00:00:00,true,true,true,Blood bank closed over Christmas\n\
         closures/christmas-closure.json,2026-12-24T00:00:00,2026-12-24T00:00:00,2027-01-02T00:00:00,true,true,true,Blood bank closed over Christmas\n"
    );
}

#[test]
fn json_lines() {
    let (code, out, _) = run(&[&LONDON[..], &["events/private-appointment.json", "--format", "jsonl"]].concat());
    assert_eq!((code, out.lines().count()), (0, 6));
    assert_eq!(
        out.lines().next().unwrap(),
        r#"{"file":"events/private-appointment.json","id":"2026-03-03T14:00:00","start":"2026-03-03T14:00:00Z","end":"2026-03-03T16:00:00Z","busy":true,"allDay":false,"floating":false,"title":""}"#
    );
}

#[test]
fn raw_bytes_into_a_file() {
    let file = folder("raw").join("table");
    let (code, out, _) = run(&[
        &LONDON[..],
        &["events/private-appointment.json", "events/secret-audit.json", "--format", "raw", "--output", file.to_str().unwrap()],
    ]
    .concat());
    assert_eq!((code, out.as_str()), (0, ""));
    let bytes = std::fs::read(file).unwrap();
    assert_eq!(bytes.len(), 6 * 28 + 12 + 12);
    assert_eq!(bytes[6 * 28..], [0x1c, 0, 1, 0, 6, 0, 0, 0, 0xa8, 0, 0, 0, 0x1c, 0, 1, 0, 0, 0, 0, 0, 0, 0, 0, 0]);
}

#[test]
fn several_zones() {
    let (code, out, errors) = run(&[&["--zone", "Asia/Tokyo", "--floating", "--quiet"], &LONDON[..], &["events", "closures"]].concat());
    assert_eq!((code, errors.as_str()), (0, ""));
    assert!(out.contains("137 occurrences"));
}

#[test]
fn standard_input() {
    let event = br#"{"@type": "Event", "uid": "1", "updated": "2024-01-01T00:00:00Z", "start": "2026-05-01T00:00:00", "title": "a\n\"b\", \u001b c"}"#;
    let (code, out, _) = with_input(event, &["-", "--floating", "--year", "2026"]);
    assert_eq!(code, 0);
    assert!(out.contains("  a \"b\",   c\n"), "{out}");
    let (_, out, _) = with_input(event, &["-", "--floating", "--year", "2026", "--format", "csv"]);
    assert!(out.ends_with("true,false,true,\"a\n\"\"b\"\", \u{1b} c\"\n"), "{out:?}");
    let (_, out, _) = with_input(event, &["-", "--floating", "--year", "2026", "--format", "jsonl"]);
    assert!(out.ends_with(",\"title\":\"a\\n\\\"b\\\", \\u001b c\"}\n"), "{out}");
    let (code, out, errors) = with_input(b"", &["-", "--floating", "--year", "2026"]);
    assert_eq!((code, out.as_str()), (1, ""));
    assert_eq!(errors, "smocurant: -: refused with 3: The text is not JSON in valid UTF-8, or has half of a surrogate pair.\n");
}

#[test]
fn refused_events() {
    let folder = folder("refused");
    std::fs::write(folder.join("a.json"), "{}").unwrap();
    std::fs::write(folder.join("b.json"), "x".repeat(70_000)).unwrap();
    std::fs::write(folder.join("c.txt"), "not read").unwrap();
    let (code, _, errors) = run(&["--floating", "--year", "2026", folder.to_str().unwrap()]);
    assert_eq!(code, 1);
    assert!(
        errors.contains("a.json: refused with 5: ") && errors.contains("b.json: refused with 1: ") && !errors.contains("c.txt"),
        "{errors}"
    );
    let (code, _, errors) = run(&["--floating", "--year", "2026", "events/theatre-lists.json", "closures/christmas-closure.json"]);
    assert_eq!(code, 1);
    assert!(errors.contains("events/theatre-lists.json: refused with 12: "), "{errors}");
    let (code, out, errors) = run(&["--floating", "--year", "2026", "nowhere.json", "closures/christmas-closure.json"]);
    assert_eq!(code, 1);
    assert!(errors.contains("nowhere.json: cannot be read: ") && out.contains("1 occurrence\n"), "{errors}");
}

#[test]
fn empty_folder() {
    let folder = folder("empty");
    let (code, _, errors) = run(&["--floating", "--year", "2026", folder.to_str().unwrap()]);
    assert_eq!(code, 1);
    assert!(errors.contains("the folder has no *.json files"), "{errors}");
}

#[test]
fn help_and_version() {
    let (code, out, _) = run(&["--help"]);
    assert_eq!(code, 0);
    for word in
        ["--zone", "--floating", "--from", "--to", "--year", "--always", "--format", "--output", "--quiet", "--version", "Exit codes"]
    {
        assert!(out.contains(word), "{word}");
    }
    assert_eq!(run(&["--version"]).1, format!("smocurant {}\n", env!("CARGO_PKG_VERSION")));
}

#[test]
fn wrong_options() {
    let cases: [(&[&str], &str); 16] = [
        (&[], "name an event's file"),
        (&["a.json"], "--zone NAME"),
        (&["a.json", "--floating"], "give the window"),
        (&["a.json", "--floating", "--year"], "--year needs a value"),
        (&["a.json", "--floating", "--year", "x"], "\"x\" is no year"),
        (&["a.json", "--floating", "--year", "1600"], "(answer 11)"),
        (&["a.json", "--floating", "--from", "2026-01-01"], "--from and --to go together"),
        (&["a.json", "--floating", "--from", "2026-02-30", "--to", "2026-03-01"], "\"2026-02-30\" is no date"),
        (&["a.json", "--floating", "--from", "2026-03-02", "--to", "2026-03-01"], "(answer 11)"),
        (&["a.json", "--floating", "--year", "2026", "--always"], "in one way"),
        (&["a.json", "--floating", "--year", "2026", "--format", "xml"], "\"xml\" is no format"),
        (&["a.json", "--floating=1", "--year", "2026"], "takes no value"),
        (&["a.json", "--fast"], "there is no option --fast"),
        (&["a.json", "--zones", "zones", "--zone", "Europe/Atlantis", "--year", "2026"], "Europe/Atlantis cannot be read"),
        (&["a.json", "--zone", "../etc/passwd", "--year", "2026"], "is not the name of a time zone"),
        (&["a.json", "--zones", "zones", "--zone", "Europe/London", "--always"], "choose an earlier end"),
    ];
    for (arguments, expected) in cases {
        let (code, out, errors) = run(arguments);
        assert_eq!((code, out.as_str()), (2, ""), "{arguments:?}");
        assert!(errors.contains(expected), "{arguments:?}: {errors}");
    }
}

#[test]
fn output_that_cannot_be_written() {
    let (code, _, errors) = run(&["closures/christmas-closure.json", "--floating", "--year", "2026", "--output", "/nowhere/at/all"]);
    assert_eq!(code, 3);
    assert!(errors.contains("/nowhere/at/all cannot be written"), "{errors}");
}
