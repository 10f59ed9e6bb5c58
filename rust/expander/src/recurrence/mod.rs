//! Which date-times an event has.

mod dates;
mod matching;
mod periods;
mod set;

/// "Nothing occurs after 9998": 9999-01-01T00:00:00, which no occurrence reaches.
pub(crate) const END_OF_TIME: i64 = 253_370_764_800;

/// 1601-01-01T00:00:00, before which nothing occurs.
pub(crate) const START_OF_TIME: i64 = -11_644_473_600;
