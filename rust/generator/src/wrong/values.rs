//! Wrong values of each kind, with their answer numbers.

use crate::node::Node;
use crate::random::Random;

/// What a property has to be.
#[derive(Clone, Copy, Debug, PartialEq, Eq)]
pub enum Kind {
    /// `start` and names of overrides: years 1601 to 9998.
    DateTime,
    /// `until`: years 1601 to 9999.
    Until,
    Updated,
    Duration,
    /// One of a closed list of words.
    Word,
    Month,
    /// At least 1.
    Count,
    /// Not 0, and not as far from it as this.
    Place(i64),
    /// A string of at least one byte.
    Name,
    /// A name, or null.
    Zone,
    /// Any string without a backslash.
    Plain,
    /// Any string.
    Text,
    Boolean,
    /// An array, also an empty one.
    List,
    /// An array with entries.
    ByList,
    Object,
}

const LEAVES: [&str; 7] = ["null", "true", "false", "0", "-1.5e3", "\"\"", "\"a\\\\n\""];
const CONTAINERS: [&str; 4] = ["[]", "{}", "[null]", "{\"a\":[1]}"];

/// What is wrong as a start, a name of an override and an `until`.
#[rustfmt::skip]
const DATE_TIMES: [&str; 16] = [
    "", "x", "2024-01-01", "2024-01-01T00:00", "2024-01-01t00:00:00", "2023-02-29T00:00:00", "2024-04-31T12:00:00", "2024-13-01T00:00:00",
    "2024-01-01T24:00:00", "2024-01-01T23:59:60", "1600-12-31T23:59:59", "2024-01-01T00:00:00Z", "2024-01-01T00:00:00.",
    "2024-01-01T00:00:00.50", "2023-02-29T00:00:00.5", "2024-01-01T00:00:00ä",
];
#[rustfmt::skip]
const UPDATED: [&str; 8] = [
    "", "Z", "2024-01-01T00:00:00", "2024-01-01T00:00:00z", "2023-02-29T00:00:00Z", "2024-01-01T00:00:00.0Z", "2024-01-01T23:59:60Z",
    "2024-01-01T00:00:00+00:00",
];
#[rustfmt::skip]
const DURATIONS: [&str; 14] = [
    "", "P", "PT", "1D", "P1Y", "P1D2W", "P1DT", "PT1H5S", "-P1D", "P367D", "P366DT1S", "PT0.50S", "P366DT0.5S", "PT99999999999999999999M",
];
const WORDS: [&str; 9] = ["", "x", "MO", "Daily", "Busy", "fortnightly", "sideways", "Event", "é"];
const MONTHS: [&str; 10] = ["", "0", "13", "01", "1l", "13L", "1LL", "L", " 1", "-1"];
const BACKSLASHES: [&str; 5] = ["\\n", "mo\\u0000", "\\\\", "2024-01-01T00:00:00\\/", "P1D\\ud834\\udd1e"];

/// A wrong value, marked with its number.
pub fn wrong(kind: Kind, random: &mut Random) -> Node {
    if kind == Kind::ByList && !random.once_in(4) {
        return Node::Wrong(25, Box::new(Node::leaf("[]")));
    }
    let (number, node) = match kind {
        Kind::DateTime if random.once_in(12) => (21, Node::string("9999-01-01T00:00:00")),
        Kind::DateTime | Kind::Until => string(21, &DATE_TIMES, random),
        Kind::Updated => string(21, &UPDATED, random),
        Kind::Duration => string(22, &DURATIONS, random),
        Kind::Word => string(24, &WORDS, random),
        Kind::Month => string(24, &MONTHS, random),
        Kind::Count => number(&["0", "-1", "-0"], random),
        Kind::Place(furthest) => number(&["0", "-0", &(furthest + 1).to_string(), &(-furthest - 1).to_string()], random),
        Kind::Name | Kind::Zone => string(26, &[""], random),
        Kind::Plain => string(26, &BACKSLASHES, random),
        Kind::Text | Kind::Boolean | Kind::List | Kind::ByList | Kind::Object => (20, Node::leaf("")),
    };
    if number == 20 || random.once_in(6) {
        return Node::Wrong(20, Box::new(other_type(kind, random)));
    }
    Node::Wrong(number, Box::new(node))
}

/// A string that is wrong by its number, or by a backslash.
fn string(number: u32, strings: &[&str], random: &mut Random) -> (u32, Node) {
    if random.once_in(4) {
        (26, Node::string(random.pick(&BACKSLASHES)))
    } else {
        (number, Node::string(random.pick(strings)))
    }
}

/// A number out of its range, or not written as an integer.
fn number(out_of_range: &[&str], random: &mut Random) -> (u32, Node) {
    let everywhere = ["1.0", "1e0", "2E+1", "-0.5", "9007199254740992", "-9007199254740992", "99999999999999999999999999"];
    let written = if random.once_in(2) { random.pick(out_of_range) } else { random.pick(&everywhere) };
    (23, Node::leaf(written))
}

/// A value of another JSON type.
fn other_type(kind: Kind, random: &mut Random) -> Node {
    loop {
        let value = if random.once_in(2) { random.pick(&LEAVES) } else { random.pick(&CONTAINERS) };
        if !is_of_type(kind, value) {
            return Node::leaf(value);
        }
    }
}

/// Has a value the JSON type of a kind?
fn is_of_type(kind: Kind, value: &str) -> bool {
    let first = value.as_bytes()[0];
    match kind {
        Kind::Count | Kind::Place(_) => matches!(first, b'-' | b'0'..=b'9'),
        Kind::Boolean => matches!(first, b't' | b'f'),
        Kind::List | Kind::ByList => first == b'[',
        Kind::Object => first == b'{',
        Kind::Zone => matches!(first, b'"' | b'n'),
        _ => first == b'"',
    }
}

/// A name that is no date-time of an occurrence.
pub fn date_name(random: &mut Random) -> String {
    random.pick(&DATE_TIMES).to_string()
}
