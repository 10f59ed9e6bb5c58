//! What the program says of events with a wrong value: where it stands, and its line where that may be shown.

mod support;

use support::{folder, run, with_input};

const DATE: &str = "A date or time is wrong: it is not written as 2026-01-31T08:00:00 (in `updated` with a Z), does not exist, or leaves the years allowed.";
const TYPE: &str = "A value has the wrong JSON type.";
const HIDDEN: &str = "  The line is not shown, since it may have words that are not public; --show-line shows it.\n";

/// An event over some lines, with its privacy and its overrides.
fn event(privacy: &str, overrides: &str) -> String {
    format!(
        r#"{{
  "@type": "Event", "uid": "1", "updated": "2026-01-01T00:00:00Z",{privacy}
  "title": "Dr Grey is away", "start": "2026-03-02T08:00:00",
  "recurrenceOverrides": {overrides}
}}
"#
    )
}

/// The errors of a command on standard input, which has to be refused.
fn refused(text: &str, arguments: &[&str]) -> String {
    let (code, out, errors) = with_input(text.as_bytes(), arguments);
    assert_eq!((code, out.as_str()), (1, ""), "{errors}");
    errors
}

const LIST: [&str; 4] = ["-", "--floating", "--year", "2026"];
const CHECK: [&str; 2] = ["check", "-"];

#[test]
fn a_public_event_shows_its_line() {
    let lines =
        "  recurrenceOverrides[\"Monday\"]\n  4 |   \"recurrenceOverrides\": {\"Monday\": {}}\n    |                           ^^^^^^^^\n";
    for privacy in ["", r#" "privacy": "public","#] {
        let text = event(privacy, r#"{"Monday": {}}"#);
        for arguments in [&LIST[..], &CHECK] {
            assert_eq!(refused(&text, arguments), format!("smocurant: -:4:27: refused with 21: {DATE}\n{lines}"));
        }
    }
}

/// Neither the line nor the name that the event has chosen for an override is shown, unless that is asked for.
#[test]
fn other_events_show_their_line_only_when_asked() {
    for privacy in [r#""private""#, r#""secret""#, r#""confidential""#, r#""""#] {
        let text = event(&format!(r#" "privacy": {privacy},"#), r#"{"Grey": {"title": 1}}"#);
        for arguments in [&LIST[..], &CHECK] {
            let expected = format!("smocurant: -:4:27: refused with 21: {DATE}\n  recurrenceOverrides[...]\n{HIDDEN}");
            assert_eq!(refused(&text, arguments), expected, "{privacy}");
            let asked = refused(&text, &[arguments, &["--show-line"]].concat());
            assert!(
                asked.contains("\n  recurrenceOverrides[\"Grey\"]\n  4 |   \"recurrenceOverrides\": {\"Grey\": {\"title\": 1}}\n"),
                "{asked}"
            );
        }
    }
}

/// A privacy that cannot be read is not taken for public.
#[test]
fn a_wrong_privacy() {
    for (privacy, number) in [("null", 20), ("[\"public\"]", 20), (r#""publi\u0063""#, 26), (r#""secre\u0074""#, 26)] {
        let errors = refused(&event(&format!("\n\"privacy\": {privacy},"), "{}"), &CHECK);
        assert!(errors.starts_with(&format!("smocurant: -:3:12: refused with {number}: ")), "{errors}");
        assert!(errors.ends_with(&format!("\n  privacy\n{HIDDEN}")), "{errors}");
    }
}

/// No word of a closure is shown, also of a public one.
#[test]
fn closures() {
    let text = event("", r#"{"2026-03-09T08:00:00": {"title": ["Grey"]}}"#);
    let weeks = ["weeks", "--log", "/dev/null", "--year", "2026", "--format", "csv", "-"];
    let (code, _, errors) = with_input(text.as_bytes(), &weeks);
    let expected = format!("smocurant: -:4:60: refused with 20: {TYPE}\n  recurrenceOverrides[...].title\n{HIDDEN}");
    assert!(code == 1 && errors.starts_with(&expected), "{errors}");
    let (_, _, errors) = with_input(text.as_bytes(), &[&weeks[..], &["--show-line"]].concat());
    let lines = "  4 |   \"recurrenceOverrides\": {\"2026-03-09T08:00:00\": {\"title\": [\"Grey\"]}}\n";
    assert!(errors.contains(&format!("  recurrenceOverrides[\"2026-03-09T08:00:00\"].title\n{lines}")), "{errors}");
}

/// A missing member stands at its object, and the message says which members there are.
#[test]
fn a_missing_member() {
    let rule = r#"{}, "recurrenceRules": [{"@type": "RecurrenceRule", "frequency": "weekly", "byDay": [{"@type": "NDay"}]}]"#;
    let errors = refused(&event("", rule), &CHECK);
    let sentence = "A value is missing or empty, or has a backslash where none may be. A member is missing here: \
                    a rule has `@type` and `frequency`, an entry of `byDay` has `@type` and `day`.";
    assert!(errors.starts_with(&format!("smocurant: -:4:111: refused with 26: {sentence}\n  recurrenceRules[0].byDay[0]\n")), "{errors}");
}

/// Files of every kind in one check: accepted ones are named on the output, all others on standard error.
#[test]
fn a_folder() {
    let folder = folder("checked");
    for (name, text) in [("a.json", event("", "{}")), ("b.json", event("", "7")), ("c.json", "[".repeat(17)), ("d.txt", String::new())] {
        std::fs::write(folder.join(name), text).unwrap();
    }
    let (code, out, errors) = run(&["check", folder.to_str().unwrap(), "closures", "nowhere.json"]);
    assert_eq!((code, out.lines().count()), (1, 6), "{out}");
    assert!(out.contains("a.json: accepted\n") && out.contains("closures/christmas-closure.json: accepted\n"), "{out}");
    assert!(errors.contains("b.json:4:26: refused with 20: ") && errors.contains("c.json: refused with 2: "), "{errors}");
    assert!(errors.contains("nowhere.json: cannot be read: ") && !errors.contains("d.txt"), "{errors}");
    assert_eq!(run(&["check", "events", "closures"]).0, 0);
}

/// Sixty kilobytes in one line: the value is shown with what stands around it.
#[test]
fn a_long_line() {
    let words = "Ä\u{9b}".repeat(7_000);
    let text = format!(
        r#"{{"@type": "Event", "uid": "1", "updated": "2026-01-01T00:00:00Z", "title": "{words}", "start": "2026-03-02", "x": "{words}"}}"#
    );
    let errors = refused(&text[..], &CHECK);
    assert!(errors.chars().all(|letter| letter == '\n' || !letter.is_control()), "{errors}");
    let lines: Vec<&str> = errors.lines().collect();
    let [_, "  start", line, carets] = lines[..] else { panic!("{errors}") };
    let place = line.chars().zip(carets.chars()).position(|(_, caret)| caret == '^').unwrap();
    assert!(line.chars().skip(place).collect::<String>().starts_with("\"2026-03-02\""), "{errors}");
    assert!(line.chars().count() < 100 && carets.matches('^').count() == 12, "{errors}");
}

#[test]
fn help_and_wrong_options() {
    let (code, out, _) = run(&["check", "--help"]);
    assert!(code == 0 && out.contains("--show-line") && out.contains("Exit codes"), "{out}");
    for command in [&["--help"][..], &["weeks", "--help"]] {
        assert!(run(command).1.contains("--show-line"));
    }
    for (arguments, expected) in [
        (&["check"][..], "name an event's file"),
        (&["check", "--year", "1"], "there is no option --year"),
        (&["check", "--show-line=1"], "takes no value"),
    ] {
        let (code, out, errors) = run(arguments);
        assert_eq!((code, out.as_str()), (2, ""));
        assert!(errors.contains(expected) && errors.contains("smocurant check --help"), "{errors}");
    }
}
