//! "The window is two local second counts from 1970-01-01T00:00:00, the first included, the second not".

use crate::answer::Refusal;
use crate::recurrence::{END_OF_TIME, START_OF_TIME};
use std::ops::Range;

/// A valid window.
#[derive(Clone, Debug, PartialEq, Eq)]
pub struct Window {
    span: Range<i64>,
}

impl Window {
    /// "both from -11,644,473,600 to 253,370,764,800, first not above second"
    pub fn new(start: i64, end: i64) -> Result<Window, Refusal> {
        if START_OF_TIME <= start && start <= end && end <= END_OF_TIME {
            Ok(Window { span: start..end })
        } else {
            Err(Refusal::Window)
        }
    }

    /// All that can occur.
    pub fn widest() -> Window {
        Window { span: START_OF_TIME..END_OF_TIME }
    }

    /// The local seconds of the window.
    pub fn span(&self) -> Range<i64> {
        self.span.clone()
    }
}
