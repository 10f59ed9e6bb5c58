//! Document 01, "Errors seen in other calendars", and readings that are easy to get wrong.

use super::{by_day, event, recurring, Examples};

const FAR: &str = "9998-12-31";

/// Adds all of them.
pub fn add(list: &mut Examples) {
    an_unmatched_start_is_counted(list);
    positions_come_before_the_start_falls_away(list);
    the_31st_is_not_clamped(list);
    nth_of_period_counts_in_the_year_unless_months_are_written(list);
    a_set_position_far_out_picks_nothing(list);
    until_before_the_start(list);
    until_is_inclusive_to_the_second(list);
    an_excluded_rule_counts_the_start_only_where_it_matches(list);
    overrides_beat_excluded_rules_and_need_no_rule(list);
    several_rules_each_once(list);
    the_ends_of_time(list);
    long_intervals(list);
}

fn an_unmatched_start_is_counted(list: &mut Examples) {
    let rule = format!(r#""frequency": "weekly", "count": 3, {}"#, by_day("mo"));
    list.add_text(&recurring("2024-01-03T09:00:00", &rule), FAR, "2024-01: 3 8 15");
}

fn positions_come_before_the_start_falls_away(list: &mut Examples) {
    // The first Tuesday or Thursday of September 1997 was the 2nd, before the start.
    let rule = format!(r#""frequency": "monthly", "count": 3, "bySetPosition": [1], {}"#, by_day("tu th"));
    list.add_text(&recurring("1997-09-04T09:00:00", &rule), FAR, "1997-09: 4; 1997-10: 2; 1997-11: 4");
}

fn the_31st_is_not_clamped(list: &mut Examples) {
    let rule = r#""frequency": "monthly", "byMonthDay": [31], "count": 4"#;
    list.add_text(&recurring("2023-01-31T09:00:00", rule), FAR, "2023-01: 31; 2023-03: 31; 2023-05: 31; 2023-07: 31");
}

fn nth_of_period_counts_in_the_year_unless_months_are_written(list: &mut Examples) {
    let yearly = |more: &str| format!(r#""frequency": "yearly", "count": 3, {}{more}"#, by_day("1mo"));
    list.add_text(&recurring("2024-01-01T09:00:00", &yearly("")), FAR, "2024-01: 1; 2025-01: 6; 2026-01: 5");
    let written = yearly(r#", "byMonth": ["3"]"#);
    list.add_text(&recurring("2024-03-04T09:00:00", &written), FAR, "2024-03: 4; 2025-03: 3; 2026-03: 2");
    // An added month does not change that: the 10th Monday of the year, if it is a 4th to 10th of March.
    let rule = format!(r#""frequency": "yearly", "byMonthDay": [4, 5, 6, 7, 8, 9, 10], {}"#, by_day("10mo"));
    let expected = "2024-03: 4; 2025-03: 10; 2026-03: 9; 2027-03: 8; 2028-03: 6; 2029-03: 5";
    list.add_text(&recurring("2024-03-04T09:00:00", &rule), "2031-01-01", expected);
}

fn a_set_position_far_out_picks_nothing(list: &mut Examples) {
    let rule = r#""frequency": "daily", "bySetPosition": [2, 366, -2]"#;
    list.add_text(&recurring("2024-01-01T09:00:00", rule), "2024-02-01", "2024-01: 1");
    let twice = r#""frequency": "daily", "bySetPosition": [1, -1, 1], "count": 3"#;
    list.add_text(&recurring("2024-01-01T09:00:00", twice), FAR, "2024-01: 1-3");
}

fn until_before_the_start(list: &mut Examples) {
    let rule = r#""frequency": "daily", "until": "2023-01-01T00:00:00""#;
    list.add_text(&recurring("2024-01-01T09:00:00", rule), FAR, "2024-01: 1");
    let excluded = format!(r#", "excludedRecurrenceRules": [{{"@type": "RecurrenceRule", {rule}}}]"#);
    list.add_text(&event("2024-01-01T09:00:00", &excluded), FAR, "2024-01: 1");
}

fn until_is_inclusive_to_the_second(list: &mut Examples) {
    let daily = |until: &str| recurring("2024-01-01T09:00:00", &format!(r#""frequency": "daily", "until": "{until}""#));
    list.add_text(&daily("2024-01-03T09:00:00"), FAR, "2024-01: 1-3");
    list.add_text(&daily("2024-01-03T08:59:59"), FAR, "2024-01: 1-2");
}

fn an_excluded_rule_counts_the_start_only_where_it_matches(list: &mut Examples) {
    let text = |count: u32| {
        let rules = r#", "recurrenceRules": [{"@type": "RecurrenceRule", "frequency": "daily", "count": 15}]"#;
        let excluded = format!(r#"{{"@type": "RecurrenceRule", "frequency": "weekly", "count": {count}, {}}}"#, by_day("mo"));
        event("2024-01-03T09:00:00", &format!(r#"{rules}, "excludedRecurrenceRules": [{excluded}]"#))
    };
    list.add_text(&text(1), FAR, "2024-01: 3-7 9-17");
    list.add_text(&text(2), FAR, "2024-01: 3-7 9-14 16-17");
    let all = r#", "excludedRecurrenceRules": [{"@type": "RecurrenceRule", "frequency": "daily", "count": 1}]"#;
    list.add_ids(&event("2024-01-03T09:00:00", all), FAR, &[]);
}

fn overrides_beat_excluded_rules_and_need_no_rule(list: &mut Examples) {
    let all = r#", "excludedRecurrenceRules": [{"@type": "RecurrenceRule", "frequency": "daily"}],
        "recurrenceOverrides": {"2024-01-03T09:00:00": {}, "1999-12-31T23:59:59": {"title": null}, "2024-01-05T00:00:01": {"excluded": false},
        "2024-01-06T00:00:00": {"excluded": true}}"#;
    let ids = ["1999-12-31T23:59:59", "2024-01-03T09:00:00", "2024-01-05T00:00:01"];
    list.add_ids(&event("2024-01-03T09:00:00", all), FAR, &ids);
}

fn several_rules_each_once(list: &mut Examples) {
    let rule = |day: &str| format!(r#"{{"@type": "RecurrenceRule", "frequency": "weekly", "count": 3, {}}}"#, by_day(day));
    let text = event("2024-01-01T09:00:00", &format!(r#", "recurrenceRules": [{}, {}, {}]"#, rule("we"), rule("tu we"), rule("mo")));
    list.add_text(&text, FAR, "2024-01: 1 2 3 8 10 15");
}

/// A week at either end reaches into 1600 and 9999, where positions are counted but nothing occurs.
fn the_ends_of_time(list: &mut Examples) {
    let monday = |more: &str| format!(r#""frequency": "weekly", "bySetPosition": [{more}], {}"#, by_day("mo tu we th fr sa su"));
    let first = recurring("1601-01-01T00:00:00", &monday("1"));
    list.add_ids(&first, "1601-01-20", &["1601-01-01T00:00:00", "1601-01-08T00:00:00", "1601-01-15T00:00:00"]);
    let from_sunday = first.replace(r#""weekly""#, r#""weekly", "firstDayOfWeek": "su""#);
    list.add_ids(&from_sunday, "1601-01-20", &["1601-01-01T00:00:00", "1601-01-07T00:00:00", "1601-01-14T00:00:00"]);
    // 9998-12-31 is a Thursday: the last week's Sunday lies in 9999.
    let last = recurring("9998-12-24T00:00:00", &monday("-1"));
    list.add_ids(&last, "9999-01-01", &["9998-12-24T00:00:00", "9998-12-27T00:00:00"]);
}

fn long_intervals(list: &mut Examples) {
    for frequency in ["daily", "weekly", "monthly", "yearly"] {
        let rule = format!(r#""frequency": "{frequency}", "interval": 9007199254740991"#);
        list.add("2024-01-03", &rule, FAR, "2024-01: 3");
    }
    let thousand = r#""frequency": "yearly", "interval": 2000"#;
    list.add("1998-01-03", thousand, FAR, "1998-01: 3; 3998-01: 3; 5998-01: 3; 7998-01: 3; 9998-01: 3");
}
