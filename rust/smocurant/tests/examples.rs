//! The dates that documents give for their examples, from the library.

use smocurant::{expand_to_vec, raw, Status, Table, Window, ZoneTable};

/// The zone of an example does not matter to its ids.
fn table(text: &str, window: Window) -> Table<'static> {
    let zones = ["", "America/New_York", "Europe/London"].map(|name| ZoneTable::fixed(name, 0));
    let tables = zones.iter().map(|zone| expand_to_vec(text.as_bytes(), zone, window));
    tables.into_iter().find(|table| *table != Err(Status::OtherZone)).unwrap().unwrap_or_else(|status| panic!("{status}: {text}"))
}

#[test]
fn ids() {
    for example in generator::examples::all() {
        let window = Window::new(Window::WIDEST.start(), example.end).unwrap();
        let ids: Vec<i64> = table(&example.text, window).records().map(|record| record.id).collect();
        assert_eq!(ids, example.ids, "{}", example.text);
    }
}

/// An accepted text answers 0 or 14 to a question for a title.
#[test]
fn answers() {
    for expected in generator::examples::answers::all() {
        let shown = String::from_utf8_lossy(&expected.text);
        assert_eq!(raw::locate(&expected.text), (expected.answer, expected.place), "{shown}");
        let answer = raw::title(&expected.text, 0).0;
        assert_eq!(if answer == 14 { 0 } else { answer }, expected.answer, "{shown}");
    }
}

/// Document 01's 40 bytes.
#[test]
fn bytes() {
    let text = generator::examples::event("2018-01-15T13:00:00", r#", "timeZone": "America/New_York", "duration": "PT1H""#);
    let zone = ZoneTable::fixed("America/New_York", -18_000);
    let mut buffer = [0xaa; 64];
    let table = smocurant::expand(text.as_bytes(), &zone, Window::WIDEST, &mut buffer).unwrap();
    let shown: String = table.as_bytes().iter().map(|byte| format!("{byte:02X}")).collect();
    assert_eq!(shown, "D0A55C5A0000000020EC5C5A0000000030FA5C5A00000000010000001C000100010000001C000000");
    assert_eq!(buffer[40..], [0xaa; 24]);
}

#[test]
fn texts_are_parts_of_the_text() {
    let text = generator::examples::COURSE;
    let title = smocurant::title(text.as_bytes(), smocurant::time::read("2020-06-25T09:00:00").unwrap()).unwrap();
    assert_eq!(title.as_str(), "Calculus I Exam");
    assert_eq!(&text[title.place()], "Calculus I Exam");
    assert_eq!(title.as_str().as_ptr(), text[title.place()].as_ptr());
    let description = smocurant::description(text.as_bytes(), smocurant::time::read("2020-06-25T09:00:00").unwrap()).unwrap();
    assert!(description.is_empty());
}
