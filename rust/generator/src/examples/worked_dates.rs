//! The worked dates of document 01 that are about recurrence.

use super::{by_day, event, recurring, Examples};

const FAR: &str = "9998-12-31";

/// Adds all of them.
pub fn add(list: &mut Examples) {
    days_that_a_month_has_not(list);
    weeks(list);
    excluded_and_brought_back(list);
    last_weekday_of_the_month(list);
}

fn days_that_a_month_has_not(list: &mut Examples) {
    let monthly = |more: &str| recurring("2024-01-31T09:00:00", &format!(r#""frequency": "monthly", "count": 3{more}"#));
    list.add_text(&monthly(""), FAR, "2024-01: 31; 2024-03: 31; 2024-05: 31");
    list.add_text(&monthly(r#", "byMonthDay": [-1]"#), FAR, "2024-01: 31; 2024-02: 29; 2024-03: 31");
    let yearly = recurring("2024-02-29T09:00:00", r#""frequency": "yearly", "count": 3"#);
    list.add_text(&yearly, FAR, "2024-02: 29; 2028-02: 29; 2032-02: 29");
}

fn weeks(list: &mut Examples) {
    let weekly = |more: &str| {
        let rule = format!(r#""frequency": "weekly", "interval": 2, "count": 4, {}{more}"#, by_day("tu su"));
        recurring("1997-08-05T09:00:00", &rule)
    };
    list.add_text(&weekly(""), FAR, "1997-08: 5 10 19 24");
    list.add_text(&weekly(r#", "firstDayOfWeek": "su""#), FAR, "1997-08: 5 17 19 31");
    let unmatched = recurring("2024-01-03T09:00:00", &format!(r#""frequency": "weekly", "count": 3, {}"#, by_day("mo")));
    list.add_text(&unmatched, FAR, "2024-01: 3 8 15");
}

fn excluded_and_brought_back(list: &mut Examples) {
    let daily = |more: &str| {
        let rules = r#", "recurrenceRules": [{"@type": "RecurrenceRule", "frequency": "daily", "count": 3}]"#;
        let excluded = format!(r#"[{{"@type": "RecurrenceRule", "frequency": "weekly", {}}}]"#, by_day("tu"));
        event("2024-01-01T09:00:00", &format!(r#"{rules}, "excludedRecurrenceRules": {excluded}{more}"#))
    };
    list.add_text(&daily(""), FAR, "2024-01: 1 3");
    list.add_text(&daily(r#", "recurrenceOverrides": {"2024-01-02T09:00:00": {}}"#), FAR, "2024-01: 1 2 3");
}

fn last_weekday_of_the_month(list: &mut Examples) {
    let rule = format!(r#""frequency": "monthly", "count": 3, "bySetPosition": [-1], {}"#, by_day("mo tu we th fr"));
    list.add_text(&recurring("2024-05-31T09:00:00", &rule), FAR, "2024-05: 31; 2024-06: 28; 2024-07: 31");
}
