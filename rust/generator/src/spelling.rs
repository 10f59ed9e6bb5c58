//! Several spellings of one value.

use crate::lengths::Length;
use crate::node::Node;
use crate::random::Random;

/// A member that may be left out where its value is the default.
pub fn either(members: &mut Vec<(String, Node)>, name: &str, value: Node, is_default: bool, random: &mut Random) {
    if !is_default || random.once_in(4) {
        members.push((name.to_string(), value));
    }
}

/// One of the spellings of a duration. Its two parts stay apart: `PT24H` is not `P1D`.
pub fn duration(length: Length, random: &mut Random) -> String {
    let (days, time) = (days(length.days, random), time(length.seconds, random));
    let spelled = if length.days == 0 && random.once_in(2) {
        format!("PT{time}")
    } else if length.seconds == 0 && random.once_in(2) {
        format!("P{days}")
    } else {
        format!("P{days}T{time}")
    };
    if random.once_in(8) {
        spelled.to_lowercase()
    } else {
        spelled
    }
}

/// Weeks and days; any of the weeks may be written as days.
fn days(days: i64, random: &mut Random) -> String {
    let weeks = random.within(0..=days / 7);
    let rest = days - 7 * weeks;
    match random.below(4) {
        0 => format!("{days}D"),
        1 if days % 7 == 0 => format!("{}W", days / 7),
        2 => format!("{weeks:02}W{rest:03}D"),
        _ => format!("{weeks}W{rest}D"),
    }
}

/// Hours, minutes and seconds; any of the hours may be written as minutes, and any of the minutes as seconds.
fn time(seconds: i64, random: &mut Random) -> String {
    let hours = random.within(0..=seconds / 3_600);
    let minutes = random.within(0..=(seconds - hours * 3_600) / 60);
    match random.below(7) {
        0 => format!("{seconds}S"),
        1 if seconds % 3_600 == 0 => format!("{}H", seconds / 3_600),
        2 if seconds % 60 == 0 => format!("{}M", seconds / 60),
        3 => format!("{}M{}S", seconds / 60, seconds % 60),
        4 => format!("{:03}H{:04}M{:05}S", seconds / 3_600, seconds / 60 % 60, seconds % 60),
        5 => format!("{}H{}M{}S", seconds / 3_600, seconds / 60 % 60, seconds % 60),
        _ => format!("{hours}H{minutes}M{}S", seconds - hours * 3_600 - minutes * 60),
    }
}

/// Some letters, of one byte and more.
pub fn word(random: &mut Random) -> String {
    let letters = ["a", "z", "Q", "0", " ", "-", "/", "~", "ä", "ß", "€", "𝄞", "\u{7f}", "'"];
    (0..random.below(12)).map(|_| random.pick(&letters)).collect()
}

/// A title or description, with escapes.
pub fn text(random: &mut Random) -> String {
    let escapes = ["\\n", "\\\"", "\\\\", "\\/", "\\u00e4", "\\ud83d\\ude00", "\\u0000", "\\b\\f\\r\\t"];
    let mut text = word(random);
    while random.once_in(3) {
        text.push_str(random.pick(&escapes));
        text.push_str(&word(random));
    }
    text
}
