//! The way from an event to one of its values.

use std::fmt;

/// The name of the member whose own names are dates.
const OVERRIDES: &str = "recurrenceOverrides";

/// One step down.
#[derive(Clone, Debug, PartialEq, Eq, Hash)]
pub enum Step {
    /// To a member of an object, by its name.
    Member(String),
    /// To an entry of an array, counted from 0.
    Entry(usize),
    /// To one of the overrides, by its name.
    Override(String),
}

/// The way from the event to one of its values, as `recurrenceRules[0].byDay[2].nthOfPeriod` or `recurrenceOverrides["2024-01-01T09:00:00"]`.
#[derive(Clone, Debug, Default, PartialEq, Eq, Hash)]
pub struct MemberPath {
    steps: Vec<Step>,
}

impl MemberPath {
    /// The path of some steps. Overrides are known by where they stand.
    pub(super) fn new(mut steps: Vec<Step>) -> MemberPath {
        if let [Step::Member(first), second @ Step::Member(_), ..] = &mut steps[..] {
            if first == OVERRIDES {
                *second = Step::Override(second.name().to_string());
            }
        }
        MemberPath { steps }
    }

    /// The steps, from the event down; none for the event itself.
    pub fn steps(&self) -> &[Step] {
        &self.steps
    }

    /// The path without the name of an override, which may be any words: `recurrenceOverrides[...].title`. All other names are RFC 8984's.
    pub fn without_override(&self) -> String {
        self.steps
            .iter()
            .enumerate()
            .map(|(place, step)| if step.is_override() { "[...]".to_string() } else { step.shown(place) })
            .collect()
    }
}

impl Step {
    fn name(&self) -> &str {
        match self {
            Step::Member(name) | Step::Override(name) => name,
            Step::Entry(_) => "",
        }
    }

    fn is_override(&self) -> bool {
        matches!(self, Step::Override(_))
    }

    /// A step in a path that has so many before it. In quotes, control characters and the like are escaped.
    fn shown(&self, before: usize) -> String {
        match self {
            Step::Entry(place) => format!("[{place}]"),
            Step::Member(name) if !is_plain(name) => format!("[{name:?}]"),
            Step::Member(name) if before == 0 => name.clone(),
            Step::Member(name) => format!(".{name}"),
            Step::Override(name) => format!("[{name:?}]"),
        }
    }
}

/// Can a name stand after a point?
fn is_plain(name: &str) -> bool {
    !name.is_empty() && name.bytes().all(|byte| byte.is_ascii_alphanumeric() || b"@_".contains(&byte))
}

impl fmt::Display for MemberPath {
    fn fmt(&self, out: &mut fmt::Formatter) -> fmt::Result {
        self.steps.iter().enumerate().try_for_each(|(place, step)| out.write_str(&step.shown(place)))
    }
}

#[cfg(test)]
mod tests {
    use super::*;

    fn path(steps: &[&str]) -> MemberPath {
        let step = |step: &&str| step.parse().map_or_else(|_| Step::Member(step.to_string()), Step::Entry);
        MemberPath::new(steps.iter().map(step).collect())
    }

    #[test]
    fn shown() {
        for (steps, expected) in [
            (&["start"][..], "start"),
            (&["recurrenceRules", "0", "byDay", "12", "nthOfPeriod"], "recurrenceRules[0].byDay[12].nthOfPeriod"),
            (&["excludedRecurrenceRules", "3", "@type"], "excludedRecurrenceRules[3].@type"),
            (&["recurrenceOverrides"], "recurrenceOverrides"),
            (&["recurrenceOverrides", "2024-01-01T09:00:00"], r#"recurrenceOverrides["2024-01-01T09:00:00"]"#),
            (&["recurrenceOverrides", "x", "title"], r#"recurrenceOverrides["x"].title"#),
            (&["recurrenceOverrides", ""], r#"recurrenceOverrides[""]"#),
            (&["recurrenceOverrides", "\u{9b}\u{202e}ä"], r#"recurrenceOverrides["\u{9b}\u{202e}ä"]"#),
            (&["a b", "c"], r#"["a b"].c"#),
            (&[], ""),
        ] {
            assert_eq!(path(steps).to_string(), expected);
        }
    }

    #[test]
    fn without_override() {
        assert_eq!(path(&["recurrenceOverrides", "Dr Grey is away"]).without_override(), "recurrenceOverrides[...]");
        assert_eq!(path(&["recurrenceOverrides", "2024-01-01", "title"]).without_override(), "recurrenceOverrides[...].title");
        assert_eq!(path(&["recurrenceRules", "0", "until"]).without_override(), "recurrenceRules[0].until");
    }
}
