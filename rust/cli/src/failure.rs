//! What ends a run early.

/// What ends a run early, with its reason.
pub enum Failure {
    /// Options, a log or a time zone that cannot be used.
    Wrong(String),
    /// Output that cannot be written.
    Output(String),
}
