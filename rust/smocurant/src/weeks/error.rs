//! Why the weeks of a log cannot be given.

use crate::status::Status;
use std::fmt;

/// Why [`weeks`](crate::weeks) refuses.
#[derive(Clone, Copy, Debug, PartialEq, Eq, Hash)]
pub enum WeeksError {
    /// The log is out of order.
    Log {
        /// The place in the log, from 0, of the first upload that is earlier than the one before it.
        place: usize,
    },
    /// The range is not from a Monday to the same or a later one. [`WeekRange::new`](crate::WeekRange::new) gives no such range.
    Range,
    /// A sheet is damaged.
    Sheet {
        /// Which of the sheets, from 0.
        place: usize,
    },
    /// There is no memory for so many weeks.
    Memory {
        /// The number of weeks.
        weeks: u64,
    },
}

impl WeeksError {
    /// The library's answer. Where memory is short there is no room for the weeks, which is its 33.
    pub fn status(self) -> Status {
        match self {
            WeeksError::Log { .. } => Status::LogOrder,
            WeeksError::Range => Status::WeekRange,
            WeeksError::Sheet { .. } => Status::Sheet,
            WeeksError::Memory { .. } => Status::Places,
        }
    }
}

impl fmt::Display for WeeksError {
    fn fmt(&self, out: &mut fmt::Formatter) -> fmt::Result {
        match self {
            WeeksError::Log { place } => {
                write!(out, "The log is out of order: upload {place}, counted from 0, is earlier than the one before it.")?
            }
            WeeksError::Range => out.write_str(Status::WeekRange.sentence())?,
            WeeksError::Sheet { place } => {
                write!(out, "Sheet {place}, counted from 0, is damaged: its layout, its ids or its marks are wrong.")?
            }
            WeeksError::Memory { weeks } => write!(out, "The range has {weeks} weeks, which is more than the memory can hold.")?,
        }
        write!(out, " (answer {})", self.status().number())
    }
}

impl std::error::Error for WeeksError {}
