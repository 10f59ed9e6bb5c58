//! The kinds of values that properties have, each with the numbers of what can be wrong with it.

use crate::answer::Refusal;
use crate::fault::Faults;
use crate::json::{Kind, Object, Text, Value};
use std::ops::RangeInclusive;

/// Integers are "from -(2^53-1) to 2^53-1".
pub const LARGEST_INTEGER: i64 = (1 << 53) - 1;

/// A property as `read` takes it, or the default where it is absent.
pub fn property<'t, T>(
    object: &Object<'t>,
    name: &str,
    default: T,
    faults: &mut Faults,
    read: impl FnOnce(&Value<'t>) -> Result<T, Refusal>,
) -> T {
    match object.get(name) {
        Some(value) => faults.keep(value.place, read(value), default),
        None => default,
    }
}

/// A property that has to be there: "a missing member counts at its object".
pub fn required<'t, T: Default>(
    object: &Object<'t>,
    name: &str,
    faults: &mut Faults,
    read: impl FnOnce(&Value<'t>) -> Result<T, Refusal>,
) -> T {
    faults.note_if(object.get(name).is_none(), object.place, Refusal::OtherValue);
    property(object, name, T::default(), faults, read)
}

/// A string; escapes are allowed in texts only, so everything else goes through [`word`].
pub fn text<'t>(value: &Value<'t>) -> Result<Text<'t>, Refusal> {
    match value.kind {
        Kind::String(text) => Ok(text),
        _ => Err(Refusal::WrongType),
    }
}

/// "anything else 26, which a wrong backslash always is": a string with one is not judged further.
pub fn word<'t>(value: &Value<'t>) -> Result<&'t [u8], Refusal> {
    match text(value)? {
        text if text.has_backslash() => Err(Refusal::OtherValue),
        text => Ok(text.raw),
    }
}

/// A word of at least one byte.
pub fn name<'t>(value: &Value<'t>) -> Result<&'t [u8], Refusal> {
    word(value).and_then(|word| if word.is_empty() { Err(Refusal::OtherValue) } else { Ok(word) })
}

/// `true` or `false`.
pub fn boolean(value: &Value) -> Result<bool, Refusal> {
    match value.kind {
        Kind::Boolean(value) => Ok(value),
        _ => Err(Refusal::WrongType),
    }
}

/// An object; anything else is noted.
pub fn object<'v, 't>(value: &'v Value<'t>, faults: &mut Faults) -> Option<&'v Object<'t>> {
    match &value.kind {
        Kind::Object(object) => Some(object),
        _ => {
            faults.note(value.place, Refusal::WrongType);
            None
        }
    }
}

/// An array, each element as `read` takes it; anything else is noted. More elements than `most` answer 9.
pub fn list<'t, T>(value: &Value<'t>, most: usize, faults: &mut Faults, read: impl Fn(&Value<'t>, &mut Faults) -> T) -> Vec<T> {
    let Kind::Array(elements) = &value.kind else {
        faults.note(value.place, Refusal::WrongType);
        return Vec::new();
    };
    faults.note_if(elements.len() > most, value.place, Refusal::TooMany);
    elements.iter().map(|element| read(element, faults)).collect()
}

/// An integer of a range: "optional minus and digits by JSON's grammar, no fraction or exponent".
pub fn integer(value: &Value, range: RangeInclusive<i64>) -> Result<i64, Refusal> {
    let Kind::Number(digits) = value.kind else { return Err(Refusal::WrongType) };
    // What is left of JSON's numbers without '.', 'e' and 'E' is what Rust reads as an integer.
    let number: Option<i64> = std::str::from_utf8(digits).ok().and_then(|digits| digits.parse().ok());
    number.filter(|number| range.contains(number)).ok_or(Refusal::Number)
}

/// An integer of a range, but not 0: places count from 1, or from -1 backwards.
pub fn place(value: &Value, furthest: i64) -> Result<i64, Refusal> {
    integer(value, -furthest..=furthest).and_then(|place| if place == 0 { Err(Refusal::Number) } else { Ok(place) })
}
