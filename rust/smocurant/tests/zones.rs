//! The shipped zones, and the system's where there are any.

use smocurant::{time, tzif, Window, ZoneTable};
use std::path::Path;

const FOLDER: &str = "/usr/share/zoneinfo";
const SHIPPED: &str = concat!(env!("CARGO_MANIFEST_DIR"), "/../../examples/zones");

/// Every zone below a folder of zones, by name. The folders `posix` and `right` have all zones again, the latter with leap seconds.
fn names(root: &Path, folder: &Path) -> Vec<String> {
    let Ok(entries) = std::fs::read_dir(folder) else { return Vec::new() };
    let mut found = Vec::new();
    for path in entries.flatten().map(|entry| entry.path()) {
        if path.is_dir() && !path.ends_with("right") && !path.ends_with("posix") {
            found.extend(names(root, &path));
        } else if std::fs::read(&path).is_ok_and(|bytes| bytes.starts_with(b"TZif")) {
            found.push(path.strip_prefix(root).unwrap().to_str().unwrap().to_string());
        }
    }
    found
}

fn offset(zone: &ZoneTable, instant: &str) -> i64 {
    let instant = time::read(instant).unwrap();
    zone.entries().take_while(|entry| entry.instant <= instant).last().map_or(zone.initial_offset(), |entry| entry.offset)
}

#[test]
fn every_zone_makes_a_valid_table() {
    let window = Window::year(2030).unwrap();
    assert!(names(Path::new(SHIPPED), Path::new(SHIPPED)).len() >= 4);
    for folder in [FOLDER, SHIPPED].map(Path::new) {
        for name in names(folder, folder) {
            let zone = tzif::in_folder(folder, &name, window).unwrap_or_else(|error| panic!("{name}: {error}"));
            let text = generator::examples::event("2030-07-01T12:00:00", &format!(r#", "timeZone": "{name}""#));
            let table = smocurant::expand_to_vec(text.as_bytes(), &zone, window);
            assert_eq!(table.map(|table| table.len()), Ok(1), "{name}");
        }
    }
}

#[test]
fn known_offsets() {
    let zone = |name: &str| tzif::in_folder(Path::new(SHIPPED), name, Window::year(2060).unwrap()).unwrap();
    for (name, instant, hours) in [
        ("Europe/London", "2024-03-31T00:59:59", 0.0),
        ("Europe/London", "2024-03-31T01:00:00", 1.0),
        ("Europe/London", "2059-07-01T00:00:00", 1.0),
        ("Europe/London", "2060-12-24T00:00:00", 0.0),
        ("America/New_York", "2018-01-15T13:00:00", -5.0),
        ("America/New_York", "2050-06-15T13:00:00", -4.0),
        ("Australia/Melbourne", "2020-10-03T15:59:59", 10.0),
        ("Australia/Melbourne", "2020-10-03T16:00:00", 11.0),
        ("Asia/Tokyo", "2060-01-01T00:00:00", 9.0),
        ("Europe/London", "1969-06-01T00:00:00", 1.0),
    ] {
        assert_eq!(offset(&zone(name), instant), (hours * 3_600.0) as i64, "{name} {instant}");
    }
}

#[test]
fn wrong_names_and_files() {
    let window = Window::year(2024).unwrap();
    for name in ["", "/etc/passwd", "../zoneinfo/Europe/London", "Europe//London", "Europe/", "a\0b"] {
        assert!(matches!(tzif::system(name, window), Err(tzif::Error::Name(_))), "{name}");
    }
    assert!(matches!(tzif::system("Europe/Atlantis", window), Err(tzif::Error::Read(..))));
    assert!(matches!(tzif::system("Europe", window), Err(tzif::Error::Read(..))));
    assert!(matches!(tzif::table("x", b"", window), Err(tzif::Error::Form(_))));
    assert!(matches!(tzif::table("x", &[b'x'; 100], window), Err(tzif::Error::Form(_))));
    let mut first = b"TZif".to_vec();
    first.resize(44, 0);
    assert!(matches!(tzif::table("x", &first, window), Err(tzif::Error::Form("it is of version 1"))));
}

/// A file that breaks off, or has other bytes, is refused and nothing else.
#[test]
fn damaged_files() {
    let bytes = std::fs::read(Path::new(SHIPPED).join("Europe/London")).unwrap();
    let window = Window::year(2024).unwrap();
    for length in 0..bytes.len() {
        assert!(tzif::table("x", &bytes[..length], window).is_err());
    }
    let random = &mut generator::Random::new(1);
    for _ in 0..2_000 {
        let mut damaged = bytes.clone();
        for _ in 0..4 {
            let place = random.index(damaged.len());
            damaged[place] = random.next() as u8;
        }
        let _ = tzif::table("x", &damaged, window);
    }
}
