//! Why a call was refused.

use std::fmt;

/// The answer of a call. The discriminant is the answer number of the exported functions.
///
/// Where several apply, the lowest number is given, with 20 to 26 after 5 and before 7. Of these the one that stands first in the text is given.
#[derive(Clone, Copy, Debug, PartialEq, Eq, PartialOrd, Ord, Hash)]
#[repr(u32)]
pub enum Status {
    /// 0: done. Functions of this crate say this by `Ok`.
    Done = 0,
    /// 1: the text is longer than 65,536 bytes.
    TextTooLong = 1,
    /// 2: the text is nested deeper than 16 levels.
    TooDeep = 2,
    /// 3: not a JSON text in valid UTF-8.
    NotJson = 3,
    /// 4: two equal member names in one object, or an escape in one.
    MemberNames = 4,
    /// 5: no Event, or a mandatory property is missing.
    NotEvent = 5,
    /// 7: properties that may not stand together.
    Conflict = 7,
    /// 8: a form that is not supported.
    Unsupported = 8,
    /// 9: too many rules, entries of a list, or overrides.
    TooMany = 9,
    /// 10: the zone table is invalid.
    ZoneTable = 10,
    /// 11: the window is invalid.
    Window = 11,
    /// 12: the event is in another zone than the table.
    OtherZone = 12,
    /// 13: the table is longer than the buffer.
    Buffer = 13,
    /// 14: the date is no occurrence, or the event is secret.
    NoOccurrence = 14,
    /// 20: a value has the wrong JSON type. [`locate`](crate::locate) says where, for this and the next six.
    WrongType = 20,
    /// 21: a bad date or time.
    DateTime = 21,
    /// 22: a bad duration.
    Duration = 22,
    /// 23: a number is out of its range, or has a fraction or an exponent.
    Number = 23,
    /// 24: an unknown word where only some are known.
    Word = 24,
    /// 25: a list is empty.
    EmptyList = 25,
    /// 26: a value is wrong in another way: it is missing, empty, or has a backslash.
    OtherValue = 26,
    /// 30: the log of uploads is out of order.
    LogOrder = 30,
    /// 31: the range is not one of whole weeks.
    WeekRange = 31,
    /// 32: the sheet is damaged.
    Sheet = 32,
    /// 33: there are fewer places than weeks.
    Places = 33,
    /// 34: the sheet is too short for a trailer.
    SheetTooShort = 34,
    /// 35: the sheet has an unknown version.
    SheetVersion = 35,
    /// 36: the sheet gives a wrong size for its records.
    SheetRecordSize = 36,
    /// 37: the sheet's number of records, the distance to the first of them and its length do not agree.
    SheetDistance = 37,
    /// 38: the ids of the sheet's records do not increase.
    SheetIds = 38,
    /// 39: a record has marks that the sheet's version does not know.
    SheetMarks = 39,
    /// 40: bytes of a record that must be zero are not.
    SheetZeros = 40,
    /// 41: the sheet has no record of this number.
    RecordNumber = 41,
}

/// All answers, in the order of their numbers.
const ALL: [Status; 33] = [
    Status::Done,
    Status::TextTooLong,
    Status::TooDeep,
    Status::NotJson,
    Status::MemberNames,
    Status::NotEvent,
    Status::Conflict,
    Status::Unsupported,
    Status::TooMany,
    Status::ZoneTable,
    Status::Window,
    Status::OtherZone,
    Status::Buffer,
    Status::NoOccurrence,
    Status::WrongType,
    Status::DateTime,
    Status::Duration,
    Status::Number,
    Status::Word,
    Status::EmptyList,
    Status::OtherValue,
    Status::LogOrder,
    Status::WeekRange,
    Status::Sheet,
    Status::Places,
    Status::SheetTooShort,
    Status::SheetVersion,
    Status::SheetRecordSize,
    Status::SheetDistance,
    Status::SheetIds,
    Status::SheetMarks,
    Status::SheetZeros,
    Status::RecordNumber,
];

/// The longest sentences.
const CONFLICT: &str =
    "Properties exclude each other: `count` and `until`, `excluded` and another patch, or `nthOfPeriod` in a weekly or daily rule.";
const DATE_TIME: &str =
    "A date or time is wrong: it is not written as 2026-01-31T08:00:00 (in `updated` with a Z), does not exist, or leaves the years allowed.";
const SHEET_DISTANCE: &str =
    "The sheet's trailer does not fit what stands before it: bytes are missing, there are too many, or its numbers are wrong.";

impl Status {
    /// The answer number.
    pub fn number(self) -> u32 {
        self as u32
    }

    /// The answer of a number.
    pub fn of_number(number: u32) -> Option<Status> {
        ALL.into_iter().find(|status| status.number() == number)
    }

    /// Is it one of 20 to 26, which say what is wrong with a value?
    pub fn is_wrong_value(self) -> bool {
        (Status::WrongType..=Status::OtherValue).contains(&self)
    }

    /// What it means, as a sentence.
    pub fn sentence(self) -> &'static str {
        match self {
            Status::Done => "Done.",
            Status::TextTooLong => "The text is longer than 65,536 bytes.",
            Status::TooDeep => "The text opens a 17th level of arrays and objects.",
            Status::NotJson => "The text is not JSON in valid UTF-8, or has half of a surrogate pair.",
            Status::MemberNames => "An object has two members of one name, or a backslash in a member name.",
            Status::NotEvent => "The text is no Event with `@type`, `uid`, `updated` and `start`.",
            Status::Conflict => CONFLICT,
            Status::Unsupported => "The event uses a form that is not supported.",
            Status::TooMany => "The event has more than 8 rules in a list, 64 entries in a by-list, or 256 overrides.",
            Status::ZoneTable => "The zone table is invalid.",
            Status::Window => "The window is invalid: its start lies after its end, or it leaves the years 1601 to 9998.",
            Status::OtherZone => "The event is in another time zone than the zone table.",
            Status::Buffer => "The table is longer than the buffer.",
            Status::NoOccurrence => "The date is no occurrence, or the event is secret.",
            Status::WrongType => "A value has the wrong JSON type.",
            Status::DateTime => DATE_TIME,
            Status::Duration => "A duration is wrong: it is not written as one, such as P1D or PT1H30M, or is longer than 366 days.",
            Status::Number => "A number is out of its range, or has a fraction or an exponent.",
            Status::Word => "A word is not one of those that may stand here.",
            Status::EmptyList => "A list is empty: it must have an entry, or be left out.",
            Status::OtherValue => "A value is missing or empty, or has a backslash where none may be.",
            Status::LogOrder => "The log is out of order: an upload is earlier than the one before it.",
            Status::WeekRange => "The range is not from a Monday 00:00:00 UTC to the same or a later one.",
            Status::Sheet => "The sheet is damaged: its layout, its ids or its marks are wrong.",
            Status::Places => "The range has more weeks than there are places for them.",
            Status::SheetTooShort => "The sheet is too short: every sheet ends with a trailer, and these bytes have no room for one.",
            Status::SheetVersion => "The sheet has a version that is not known here.",
            Status::SheetRecordSize => "The sheet's trailer gives a wrong size for its records.",
            Status::SheetDistance => SHEET_DISTANCE,
            Status::SheetIds => "The sheet's records are out of order: an id is the same as the one before it, or lower.",
            Status::SheetMarks => "A record of the sheet has marks that do not exist in its version.",
            Status::SheetZeros => "A record of the sheet has other bytes where there must be zeros.",
            Status::RecordNumber => {
                "The sheet has no record of this number: the first is 0, and the last is one below the number of records."
            }
        }
    }
}

impl fmt::Display for Status {
    fn fmt(&self, out: &mut fmt::Formatter) -> fmt::Result {
        write!(out, "{} (answer {})", self.sentence(), self.number())
    }
}

impl std::error::Error for Status {}

#[cfg(test)]
mod tests {
    use super::*;

    #[test]
    fn numbers_go_round() {
        let numbers = (0..6).chain(7..15).chain(20..27).chain(30..42);
        assert_eq!(numbers.clone().count(), ALL.len());
        for (number, status) in numbers.zip(ALL) {
            assert_eq!(status.number(), number);
            assert_eq!(Status::of_number(number), Some(status));
            assert!(status.sentence().ends_with('.'));
            assert_eq!(status.is_wrong_value(), (20..=26).contains(&number));
        }
        for number in [6, 15, 19, 27, 29, 42, u32::MAX] {
            assert_eq!(Status::of_number(number), None);
        }
        assert!(ALL.is_sorted());
    }
}
