//! `smocurant weeks` as its users run it: on the shipped year of a hospital, and on logs and closures of the tests' own.

mod support;

use std::path::Path;
use support::{folder, run, with_input};

/// The shipped year.
const YEAR: [&str; 12] = [
    "weeks",
    "--zones",
    "zones",
    "--zone",
    "Europe/London",
    "--log",
    "uploads-2026.log",
    "--from",
    "2025-12-29",
    "--to",
    "2026-12-28",
    "closures",
];

/// What `./demo` shows.
const SCREEN: &str = "\
52 weeks from Monday 2025-12-29 to Sunday 2026-12-27, in UTC

2026  Jan                      Feb                 Mar
      W01  W02  W03  W04  W05  W06  W07  W08  W09  W10  W11  W12  W13
      ███   5    3    3    3    3    3    4    2    4   [?]   3    3
      Apr                      May                 Jun
      W14  W15  W16  W17  W18  W19  W20  W21  W22  W23  W24  W25  W26
       4    3    3    5    3    4    3    5    4    4    4    5    2
      Jul                      Aug                 Sep
      W27  W28  W29  W30  W31  W32  W33  W34  W35  W36  W37  W38  W39
       4   [?]   4    3    5    2   ███  ███   4    4    4    4    5
      Oct                      Nov                 Dec
      W40  W41  W42  W43  W44  W45  W46  W47  W48  W49  W50  W51  W52
       3    3    3    5   ███   3    3   [?]   4    4    4    3   ███

 n   44 weeks reported, with n uploads; 159 uploads in all
███  5 weeks shut, by Monday: W01 2025-12-29, W33-W34 2026-08-10 to 2026-08-17,
     W44 2026-10-26, W52 2026-12-21
[?]  3 weeks missing, by Monday: W11 2026-03-09, W28 2026-07-06, W47 2026-11-16
Floating closures are counted as UTC.
";

/// Runs `weeks` on a log, for the first weeks of 2026, and the options of one test.
fn weeks(log: &str, options: &[&str]) -> (i32, String, String) {
    with_input(log.as_bytes(), &[&["weeks", "--log", "-"], options].concat())
}

/// The shipped year in another form.
fn year_as(format: &str) -> String {
    let (code, out, _) = run(&[&YEAR[..], &["--format", format]].concat());
    assert_eq!(code, 0);
    out
}

/// Writes a closure of a test's own, and gives its path.
fn closure(folder: &Path, name: &str, members: &str) -> String {
    let path = folder.join(name);
    let text = format!(r#"{{"@type": "Event", "uid": "1", "updated": "2024-01-01T00:00:00Z", "title": "Hidden words", {members}}}"#);
    std::fs::write(&path, text).unwrap();
    path.to_str().unwrap().to_string()
}

/// The classes in the order of the weeks, by their first letters.
fn classes(csv: &str) -> String {
    csv.lines().skip(1).map(|line| &line.split(',').nth(2).unwrap()[..1]).collect()
}

#[test]
fn the_year_on_one_screen() {
    let (code, out, errors) = run(&YEAR);
    assert_eq!((code, errors.as_str()), (0, ""));
    assert_eq!(out, SCREEN);
    // A line is left for the words of the demo, and one for the prompt.
    assert!(out.lines().count() <= 22 && out.lines().all(|line| line.chars().count() < 80));
}

#[test]
fn csv() {
    let (code, out, errors) = run(&[&YEAR[..], &["--format", "csv"]].concat());
    assert_eq!((code, errors.as_str()), (0, "smocurant: Floating closures are counted as UTC.\n"));
    assert!(out.starts_with("monday,iso_week,class,uploads\n2025-12-29,2026-W01,shut,0\n2026-01-05,2026-W02,reported,5\n"), "{out}");
    assert_eq!(out.lines().nth(11), Some("2026-03-09,2026-W11,missing,0"));
    assert_eq!(out.lines().count(), 53);
    let uploads: u64 = out.lines().skip(1).map(|line| line.rsplit(',').next().unwrap().parse::<u64>().unwrap()).sum();
    assert_eq!(uploads, 159);
}

#[test]
fn json() {
    let options = ["--from", "2025-12-22", "--to", "2026-01-12", "--format", "json", "closures/christmas-closure.json"];
    let (code, out, errors) = weeks("2026-01-05T00:00:00Z\n2026-01-11T23:59:59Z\n1768176000\n", &options);
    assert_eq!((code, errors.as_str()), (0, ""));
    let expected = r#"{
  "range": {"from": "2025-12-22", "to": "2026-01-12"},
  "tallies": {"reported": 1, "shut": 2, "missing": 0, "uploads": 2},
  "complete": true,
  "weeks": [
    {"monday": "2025-12-22", "isoWeek": "2025-W52", "class": "shut", "uploads": 0},
    {"monday": "2025-12-29", "isoWeek": "2026-W01", "class": "shut", "uploads": 0},
    {"monday": "2026-01-05", "isoWeek": "2026-W02", "class": "reported", "uploads": 2}
  ],
  "notes": [
    "Floating closures are counted as UTC.",
    "Outside of the range, and not counted: 1 upload."
  ]
}
"#;
    assert_eq!(out, expected);
    let year = year_as("json");
    assert_eq!(year.matches(r#""class": "missing""#).count(), 3);
    assert!(year.contains(r#""tallies": {"reported": 44, "shut": 5, "missing": 3, "uploads": 159}"#), "{year}");
}

/// Checks that the tags of a text are closed in their order; some are never closed.
fn check_tags(text: &str, single: &[&str]) {
    let mut open: Vec<&str> = Vec::new();
    for part in text.split('<').skip(1) {
        let (tag, after) = part.split_once('>').expect("each tag ends");
        assert!(!after.contains('>'), "{after}");
        let name = tag.split([' ', '\n', '/']).next().unwrap();
        if let Some(closed) = tag.strip_prefix('/') {
            assert_eq!(open.pop(), Some(closed));
        } else if !tag.ends_with('/') && !tag.starts_with(['?', '!']) && !single.contains(&name) {
            open.push(name);
        }
    }
    assert!(open.is_empty(), "{open:?}");
}

#[test]
fn svg() {
    let picture = year_as("svg");
    assert!(picture.starts_with("<?xml version=\"1.0\" encoding=\"UTF-8\"?>\n<svg xmlns=\"http://www.w3.org/2000/svg\" viewBox="));
    check_tags(&picture, &[]);
    // One of each kind is the legend's.
    for (class, number) in [("reported", 44), ("shut", 5), ("missing", 3)] {
        assert_eq!(picture.matches(&format!("<g class=\"{class}\">")).count(), number + 1, "{class}");
    }
    for words in [
        "<title>Weeks that were shut and weeks that went missing</title>",
        "<title>2026-W11, Monday 2026-03-09: missing</title>",
        ">Floating closures are counted as UTC.<",
        ">5 weeks shut<",
    ] {
        assert!(picture.contains(words), "{words}");
    }
}

#[test]
fn html() {
    let page = year_as("html");
    assert!(page.starts_with("<!DOCTYPE html>\n<html lang=\"en\">\n<head>\n<meta charset=\"utf-8\">"));
    check_tags(&page, &["meta"]);
    let row = |week: &str, monday: &str, sunday: &str| format!("<tr><th scope=\"row\">{week}</th><td>{monday}</td><td>{sunday}</td></tr>");
    for words in [row("2026-W11", "2026-03-09", "2026-03-15"), row("2026-W01", "2025-12-29", "2026-01-04")] {
        assert!(page.contains(&words), "{words}");
    }
    assert_eq!(page.matches("<th scope=\"row\">").count(), 8);
    assert!(
        page.contains("<p>Floating closures are counted as UTC.</p>")
            && !page.contains("<script")
            && !page.contains("http://www.w3.org/1999")
    );
    let (_, page, _) =
        weeks("1767600000\n", &["--from", "2026-01-05", "--to", "2026-01-12", "--format", "html", "closures/private-closure.json"]);
    check_tags(&page, &["meta"]);
    assert_eq!(page.matches("<p>None.</p>").count(), 2);
}

#[test]
fn no_words_of_events() {
    for format in ["screen", "csv", "json", "svg", "html"] {
        let (_, out, errors) = run(&[&YEAR[..], &["events", "--format", format]].concat());
        for hidden in ["closed", "Inspection", "Theatre", "clinic", "audit", "holiday", "closures/", ".json"] {
            assert!(!out.contains(hidden) && !errors.contains(hidden), "{format}: {hidden}");
        }
    }
}

#[test]
fn private_closures_count_and_secret_ones_do_not() {
    let folder = folder("weeks-privacy");
    let range = ["--from", "2026-01-05", "--to", "2026-01-12", "--format", "csv"];
    for (privacy, expected) in [("public", "s"), ("private", "s"), ("secret", "m")] {
        let file =
            closure(&folder, "a.json", &format!(r#""privacy": "{privacy}", "start": "2026-01-07T00:00:00", "freeBusyStatus": "free""#));
        let (code, out, _) = weeks("", &[&range[..], &[&file]].concat());
        assert_eq!((code, classes(&out).as_str()), (0, expected), "{privacy}");
    }
}

#[test]
fn closures_that_begin_before_the_range() {
    let folder = folder("weeks-before");
    let long = closure(&folder, "long.json", r#""start": "2025-01-08T00:00:00", "duration": "P366D""#);
    let options = ["--from", "2026-01-05", "--to", "2026-01-19", "--format", "csv"];
    let (code, out, errors) = weeks("", &[&options[..], &[&long]].concat());
    assert_eq!((code, classes(&out).as_str()), (0, "sm"));
    assert_eq!(errors, "smocurant: Floating closures are counted as UTC.\n");
    // Its first day in the zone is a Sunday in UTC.
    let zoned = closure(&folder, "zoned.json", r#""start": "2026-01-05T08:00:00", "timeZone": "Asia/Tokyo""#);
    let options = ["--from", "2025-12-29", "--to", "2026-01-12", "--format", "csv", "--zones", "zones", "--zone", "Asia/Tokyo", &zoned];
    let (code, out, errors) = weeks("", &options);
    assert_eq!((code, classes(&out).as_str(), errors.as_str()), (0, "sm", ""));
}

/// A day from Sunday 00:30 over the March clock change ends on Monday 00:30 in London, which is still Sunday in UTC. 24 hours end an hour later.
#[test]
fn closures_over_a_clock_change() {
    let folder = folder("weeks-clock");
    for (length, expected) in [("P1D", "sm"), ("PT24H", "ss"), ("P1DT30M", "sm"), ("P1DT31M", "ss")] {
        let members = format!(r#""start": "2026-03-29T00:30:00", "timeZone": "Europe/London", "duration": "{length}""#);
        let file = closure(&folder, "a.json", &members);
        let zone = ["--zones", "zones", "--zone", "Europe/London"];
        let (code, out, _) = weeks("", &[&zone[..], &["--from", "2026-03-23", "--to", "2026-04-06", "--format", "csv", &file]].concat());
        assert_eq!((code, classes(&out).as_str()), (0, expected), "{length}");
    }
}

#[test]
fn closures_that_an_override_moves() {
    let folder = folder("weeks-moved");
    let cases = [
        ("2016-01-07T00:00:00", "s"), // 3,653 days before
        ("2016-01-01T00:00:00", "s"), // within the time that the longest occurrence lasts
        ("2013-01-01T00:00:00", "m"),
        ("2036-01-07T00:00:00", "s"), // 3,652 days after
        ("2037-01-07T00:00:00", "m"),
    ];
    for (date, expected) in cases {
        let members = format!(r#""start": "2010-01-01T00:00:00", "recurrenceOverrides": {{"{date}": {{"start": "2026-01-07T00:00:00"}}}}"#);
        let file = closure(&folder, "a.json", &members);
        let (code, out, _) = weeks("", &["--from", "2026-01-05", "--to", "2026-01-12", "--format", "csv", &file]);
        assert_eq!((code, classes(&out).as_str()), (0, expected), "{date}");
    }
}

#[test]
fn week_53_and_the_change_of_the_year() {
    let (code, out, _) = weeks("", &["--year", "2026", "--format", "csv", "closures/christmas-closure.json"]);
    assert_eq!((code, out.lines().count()), (0, 54));
    assert!(out.ends_with("2026-12-21,2026-W52,shut,0\n2026-12-28,2026-W53,shut,0\n"), "{out}");
    let (_, out, _) = weeks("", &["--year", "2027", "--format", "csv", "closures/christmas-closure.json"]);
    assert!(out.contains("uploads\n2027-01-04,2027-W01,missing,0\n") && out.ends_with("2027-12-27,2027-W52,shut,0\n"), "{out}");
    let (_, out, _) = weeks("2026-12-28T00:00:00Z", &["--from", "2026-12-21", "--to", "2027-01-11", "closures/christmas-closure.json"]);
    let expected = "
2026                                                              Dec
                                                                  W52  W53
                                                                  ███   1

2027  Jan
      W01
      [?]

 n   1 week reported, with n uploads; 1 upload in all
███  1 week shut, by Monday: W52 2026-12-21
[?]  1 week missing, by Monday: W01 2027-01-04
";
    assert!(out.contains(expected), "{out}");
}

#[test]
fn logs_in_many_spellings() {
    let log = "\u{feff}# uploads\r\n\r\n1767571200\r\n2026-01-05T08:00:00Z\r\n2026-01-05t09:30:00.25+01:00\r\n 2026-01-12T00:59:59+01:00\r\n#\r\n";
    let options = ["--from", "2026-01-05", "--to", "2026-01-12", "--format", "csv", "closures/private-closure.json", "--zones", "zones"];
    let (code, out, errors) = weeks(log, &[&options[..], &["--zone", "Europe/London"]].concat());
    assert_eq!((code, errors.as_str()), (0, ""));
    assert!(out.ends_with("2026-01-05,2026-W02,reported,4\n"), "{out}");
}

#[test]
fn wrong_logs() {
    let options = ["--from", "2026-01-05", "--to", "2026-01-12", "closures/christmas-closure.json"];
    let cases = [
        ("1\nx\n", "standard input, line 2: \"x\" is no instant such as 2026-01-05T08:00:00Z or 1767600000\n"),
        ("\n# a\n2026-01-05T08:00:00\n", "standard input, line 3: \"2026-01-05T08:00:00\" is no instant"),
        (
            "# a\n2026-01-06T00:00:00Z\n\n2026-01-05T00:00:00Z\n",
            "standard input, line 4: 2026-01-05T00:00:00Z is earlier than 2026-01-06T00:00:00Z in line 2; --sort puts the log in order first\n",
        ),
    ];
    for (log, expected) in cases {
        let (code, out, errors) = weeks(log, &options);
        assert_eq!((code, out.as_str()), (2, ""), "{log}");
        assert!(errors.contains(expected), "{errors}");
    }
    let (code, out, errors) = weeks(cases[2].0, &[&options[..], &["--sort"]].concat());
    assert_eq!((code, errors.as_str()), (0, ""));
    assert!(out.contains("1 week reported, with n uploads; 2 uploads in all"), "{out}");
}

#[test]
fn several_logs() {
    let folder = folder("weeks-logs");
    let file = |name: &str, log: &str| {
        std::fs::write(folder.join(name), log).unwrap();
        folder.join(name).to_str().unwrap().to_string()
    };
    let (first, second) = (file("first.log", "2026-01-05T08:00:00Z\n"), file("second.log", "2026-01-06T08:00:00Z\n2026-01-07T08:00:00Z\n"));
    let rest = ["--from", "2026-01-05", "--to", "2026-01-12", "--format", "csv", "closures/christmas-closure.json"];
    let (code, out, _) = run(&[&["weeks", "--log", &first, "--log", &second], &rest[..]].concat());
    assert_eq!(code, 0);
    assert!(out.ends_with(",reported,3\n"), "{out}");
    let (code, _, errors) = run(&[&["weeks", "--log", &second, "--log", &first], &rest[..]].concat());
    assert_eq!(code, 2);
    assert!(errors.contains("first.log, line 1: ") && errors.contains("second.log, line 2; --sort"), "{errors}");
    let (code, _, errors) = run(&[&["weeks", "--log", "nowhere.log"], &rest[..]].concat());
    assert_eq!(code, 2);
    assert!(errors.contains("--log nowhere.log: cannot be read: "), "{errors}");
}

#[test]
fn refused_closures() {
    let folder = folder("weeks-refused");
    std::fs::write(folder.join("a.json"), "{}").unwrap();
    let refused = folder.join("a.json").to_str().unwrap().to_string();
    let options = ["--from", "2025-12-29", "--to", "2026-01-12", "--format"];
    let closures = [&refused, "nowhere.json", "empty-folder/", "closures/christmas-closure.json", "closures/private-closure.json"];
    let note = "Incomplete: 4 closures could not be used, so a week shown as missing may have been shut.";
    for format in ["screen", "csv", "json", "svg", "html"] {
        let (code, out, errors) = weeks("", &[&options[..], &[format], &closures[..]].concat());
        assert_eq!(code, 1);
        for complaint in
            ["a.json: refused with 5: ", "nowhere.json: cannot be read: ", "empty-folder/: ", "private-closure.json: refused with 12: "]
        {
            assert!(errors.contains(complaint), "{complaint}: {errors}");
        }
        assert!(out.contains("shut") && out.contains("missing"), "{format}");
        assert!(if format == "csv" { errors.contains(note) } else { out.contains(note) }, "{format}: {out}");
        assert_eq!(out.contains("\"complete\": false"), format == "json");
    }
}

#[test]
fn a_closure_on_standard_input() {
    let event = br#"{"@type": "Event", "uid": "1", "updated": "2024-01-01T00:00:00Z", "start": "2026-03-09T00:00:00", "duration": "P1W"}"#;
    let (code, out, _) = with_input(event, &[&YEAR[..], &["-"]].concat());
    assert_eq!(code, 0);
    assert!(out.contains("6 weeks shut, by Monday: W01 2025-12-29, W11 2026-03-09,") && out.contains("2 weeks missing"), "{out}");
}

#[test]
fn a_range_of_no_weeks() {
    let range = ["--from", "2026-01-05", "--to", "2026-01-05", "closures/christmas-closure.json"];
    let (code, out, _) = weeks("", &range);
    assert_eq!((code, out.as_str()), (0, "No weeks\n\nFloating closures are counted as UTC.\n"));
    for format in ["svg", "html"] {
        let (code, out, _) = weeks("", &[&range[..], &["--format", format]].concat());
        assert_eq!(code, 0);
        check_tags(&out, &["meta"]);
    }
    let (_, out, _) = weeks("", &[&range[..], &["--format", "json"]].concat());
    assert!(out.contains("\"weeks\": [],\n"), "{out}");
}

#[test]
fn several_years() {
    let (code, out, _) = weeks("", &["--from", "2018-01-01", "--to", "2028-01-03", "closures/christmas-closure.json"]);
    assert_eq!(code, 0);
    assert!(out.lines().all(|line| line.chars().count() < 80), "{out}");
    assert_eq!(out.matches("W01  W02").count(), 10);
    // A run ends with its year.
    assert!(out.contains(" W52 2025-12-22, W01 2025-12-29,") && out.contains(" W52-W53 2026-12-21 to 2026-12-28,"), "{out}");
    assert_eq!(out.matches("  W53").count(), 2);
    assert_eq!(out.lines().filter(|line| line.is_empty()).count(), 10 + 1);
    let (_, page, _) = weeks("", &["--from", "2018-01-01", "--to", "2028-01-03", "--format", "html", "closures/christmas-closure.json"]);
    check_tags(&page, &["meta"]);
    assert_eq!(page.matches("<svg ").count(), 11);
}

#[test]
fn help_and_version() {
    let (code, out, _) = run(&["weeks", "--help"]);
    assert_eq!(code, 0);
    let words = ["--log", "--sort", "--from", "--to", "--year", "--zone", "--floating", "--zones", "--format", "--output", "--quiet"];
    for word in words.iter().chain(&["3,653 days", "RFC 3339", "Exit codes", "23:59:60Z"]) {
        assert!(out.contains(word), "{word}");
    }
    assert!(out.lines().all(|line| line.chars().count() < 80));
    assert_eq!(run(&["weeks", "--version"]).1, format!("smocurant {}\n", env!("CARGO_PKG_VERSION")));
    assert!(run(&["--help"]).1.contains("smocurant weeks --help"));
}

#[test]
fn wrong_options() {
    let log = ["weeks", "--log", "uploads-2026.log"];
    let cases: [(&[&str], &str); 15] = [
        (&["--year", "2026"], "name a closure's file"),
        (&["closures"], "give the range"),
        (&["closures", "--from", "2025-12-29"], "--from and --to go together"),
        (&["closures", "--year", "2026", "--to", "2025-12-29"], "in one way"),
        (&["closures", "--from", "2026-01-05", "--to", "2025-12-29"], "--to lies before --from"),
        (
            &["closures", "--from", "2026-01-01"],
            "--from 2026-01-01 is not the start of a Monday; the nearest are 2025-12-29 and 2026-01-05\n",
        ),
        (
            &["closures", "--to", "2026-01-05T08:00:00"],
            "--to 2026-01-05T08:00:00 is not the start of a Monday; the nearest are 2026-01-05 and 2026-01-12",
        ),
        (&["closures", "--to", "2026-02-30"], "\"2026-02-30\" is no date"),
        (&["closures", "--year", "x"], "\"x\" is no year"),
        (&["closures", "--year", "10000"], "10000 is no year from 1 to 9998"),
        (&["closures", "--year", "2026", "--format", "jsonl"], "there are screen, csv, json, svg and html"),
        (&["closures", "--year", "2026", "--always"], "there is no option --always"),
        (&["closures", "--year", "2026", "--sort=1"], "--sort takes no value"),
        (&["-", "-", "--year", "2026"], "standard input, -, can be read only once"),
        (&["closures", "--year", "2026", "--zones", "zones", "--zone", "Europe/Atlantis"], "Europe/Atlantis cannot be read"),
    ];
    for (arguments, expected) in cases {
        let (code, out, errors) = run(&[&log[..], arguments].concat());
        assert_eq!((code, out.as_str()), (2, ""), "{arguments:?}");
        assert!(errors.contains(expected), "{arguments:?}: {errors}");
    }
    let (code, _, errors) = run(&["weeks", "closures", "--year", "2026"]);
    assert_eq!((code, errors.contains("--log FILE\nsmocurant weeks --help lists the options.")), (2, true), "{errors}");
}

#[test]
fn output_into_a_file() {
    let file = folder("weeks-output").join("year.svg");
    let (code, out, _) = run(&[&YEAR[..], &["--format", "svg", "--output", file.to_str().unwrap()]].concat());
    assert_eq!((code, out.as_str()), (0, ""));
    assert_eq!(std::fs::read_to_string(file).unwrap(), year_as("svg"));
    let (code, _, errors) = run(&[&YEAR[..], &["--output", "/nowhere/at/all"]].concat());
    assert_eq!(code, 3);
    assert!(errors.contains("/nowhere/at/all cannot be written"), "{errors}");
}
