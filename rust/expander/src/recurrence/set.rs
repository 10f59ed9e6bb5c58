//! The set of an event: "the start and all rules' dates, each once, less the excluded rules' dates, less overrides with `excluded` true,
//! with every other override's date added".

use super::dates::{dates, Kind};
use crate::event::{Event, Override, Rule};
use std::ops::Range;

impl Event<'_> {
    /// The recurrence ids in a span of local seconds, in order.
    pub fn ids(&self, span: Range<i64>) -> Vec<i64> {
        let excluded = self.dates_of(&self.excluded_rules, Kind::Excluded, &span);
        let mut ids = self.dates_of(&self.rules, Kind::Included, &span);
        if span.contains(&self.start) {
            ids.push(self.start);
        }
        ids.retain(|id| excluded.binary_search(id).is_err() && !self.overrides.contains_key(id));
        for (id, own) in &self.overrides {
            if span.contains(id) && matches!(own, Override::Patch(_)) {
                ids.push(*id);
            }
        }
        ids.sort_unstable();
        ids.dedup();
        ids
    }

    /// The dates of a list of rules, in order and each once.
    fn dates_of(&self, rules: &[Rule], kind: Kind, span: &Range<i64>) -> Vec<i64> {
        let mut all: Vec<i64> = rules.iter().flat_map(|rule| dates(rule, self.start, kind, span.clone())).collect();
        all.sort_unstable();
        all.dedup();
        all
    }
}
