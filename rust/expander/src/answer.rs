//! The answer numbers.

/// Why a call is refused. The discriminant is the answer number; 0, done, is no refusal.
#[derive(Clone, Copy, Debug, PartialEq, Eq)]
#[repr(u32)]
pub enum Refusal {
    /// The text is longer than 65,536 bytes.
    TextTooLong = 1,
    /// A 17th level is opened.
    TooDeep = 2,
    /// Not a JSON text in valid UTF-8, or an escaped surrogate without its partner.
    NotJson = 3,
    /// Two equal member names in one object, or a backslash in a member name.
    Names = 4,
    /// No Event, or a mandatory property is missing.
    NotEvent = 5,
    /// Properties that may not stand together.
    Conflict = 7,
    /// A form that is not supported.
    Unsupported = 8,
    /// Too many rules, entries or overrides.
    TooMany = 9,
    /// The zone table is invalid.
    ZoneTable = 10,
    /// The window is invalid.
    Window = 11,
    /// The event has another zone than the table.
    OtherZone = 12,
    /// The table of occurrences is longer than the buffer.
    Buffer = 13,
    /// The date is no occurrence, or the event is secret.
    NoOccurrence = 14,
    /// A property read has a wrong JSON type.
    WrongType = 20,
    /// A bad date or time.
    DateTime = 21,
    /// A bad duration.
    Duration = 22,
    /// A number out of range, or with a fraction or exponent.
    Number = 23,
    /// An unknown word in a closed list.
    Word = 24,
    /// An empty list.
    EmptyList = 25,
    /// Any other wrong value: a backslash, an empty name, or a member that is missing.
    OtherValue = 26,
    /// The log of uploads is out of order.
    LogOrder = 30,
    /// The range is not from one Monday to the same or a later one.
    WeekRange = 31,
    /// The reader of sheets refuses the sheet.
    Sheet = 32,
    /// There are fewer places than weeks.
    Places = 33,
    /// The sheet is too short for a trailer.
    SheetTooShort = 34,
    /// The sheet has an unknown version.
    SheetVersion = 35,
    /// The sheet has a wrong record size.
    SheetRecordSize = 36,
    /// The distance isn't 28 times the count or isn't the bytes before the trailer.
    SheetDistance = 37,
    /// The ids are not strictly increasing.
    SheetIds = 38,
    /// Marks outside 0 to 7.
    SheetMarks = 39,
    /// Zeros that are not zero.
    SheetZeros = 40,
    /// The record's number is at or over the count.
    RecordNumber = 41,
}

impl Refusal {
    /// The answer number.
    pub fn number(self) -> u32 {
        self as u32
    }

    /// Is it one of 20 to 26, which say what is wrong with a value?
    pub fn is_wrong_value(self) -> bool {
        (20..=26).contains(&self.number())
    }
}
