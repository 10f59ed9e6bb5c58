//! The examples of RFC 5545, 3.8.5.3, inside the profile, with the dates that it prints. Its zone is America/New_York; an `UNTIL` in UTC is
//! written in local time here.

use super::{by_day, event, Examples};

const FAR: &str = "9998-12-31";

/// Adds all of them.
pub fn add(list: &mut Examples) {
    daily(list);
    every_day_in_january(list);
    weekly(list);
    weekly_on_some_days(list);
    monthly_on_the_nth_weekday(list);
    monthly_on_days_of_the_month(list);
    monthly_on_weekdays(list);
    friday_the_thirteenth(list);
    yearly_in_some_months(list);
    yearly_on_weekdays(list);
    election_day(list);
    set_positions(list);
}

fn daily(list: &mut Examples) {
    list.add("1997-09-02", r#""frequency": "daily", "count": 10"#, FAR, "1997-09: 2-11");
    let until = r#""frequency": "daily", "until": "1997-12-23T19:00:00""#;
    list.add("1997-09-02", until, FAR, "1997-09: 2-30; 1997-10: 1-31; 1997-11: 1-30; 1997-12: 1-23");
    let other = r#""frequency": "daily", "interval": 2"#;
    list.add("1997-09-02", other, "1997-10-05", "1997-09: 2 4 6 8 10 12 14 16 18 20 22 24 26 28 30; 1997-10: 2 4");
    list.add("1997-09-02", r#""frequency": "daily", "interval": 10, "count": 5"#, FAR, "1997-09: 2 12 22; 1997-10: 2 12");
}

fn every_day_in_january(list: &mut Examples) {
    let end = r#""until": "2000-01-31T09:00:00", "byMonth": ["1"]"#;
    let expected = "1998-01: 1-31; 1999-01: 1-31; 2000-01: 1-31";
    list.add("1998-01-01", &format!(r#""frequency": "yearly", {end}, {}"#, by_day("su mo tu we th fr sa")), FAR, expected);
    list.add("1998-01-01", &format!(r#""frequency": "daily", {end}"#), FAR, expected);
}

fn weekly(list: &mut Examples) {
    list.add("1997-09-02", r#""frequency": "weekly", "count": 10"#, FAR, "1997-09: 2 9 16 23 30; 1997-10: 7 14 21 28; 1997-11: 4");
    let until = r#""frequency": "weekly", "until": "1997-12-23T19:00:00""#;
    list.add("1997-09-02", until, FAR, "1997-09: 2 9 16 23 30; 1997-10: 7 14 21 28; 1997-11: 4 11 18 25; 1997-12: 2 9 16 23");
    let other = r#""frequency": "weekly", "interval": 2, "firstDayOfWeek": "su""#;
    let expected = "1997-09: 2 16 30; 1997-10: 14 28; 1997-11: 11 25; 1997-12: 9 23; 1998-01: 6 20; 1998-02: 3 17";
    list.add("1997-09-02", other, "1998-03-01", expected);
}

fn weekly_on_some_days(list: &mut Examples) {
    let five = |end: &str| format!(r#""frequency": "weekly", {end}, "firstDayOfWeek": "su", {}"#, by_day("tu th"));
    let expected = "1997-09: 2 4 9 11 16 18 23 25 30; 1997-10: 2";
    list.add("1997-09-02", &five(r#""until": "1997-10-06T20:00:00""#), FAR, expected);
    list.add("1997-09-02", &five(r#""count": 10"#), FAR, expected);
    let other = |more: &str| format!(r#""frequency": "weekly", "interval": 2, "firstDayOfWeek": "su", {more}"#);
    let until = other(&format!(r#""until": "1997-12-23T19:00:00", {}"#, by_day("mo we fr")));
    let expected = "1997-09: 1 3 5 15 17 19 29; 1997-10: 1 3 13 15 17 27 29 31; 1997-11: 10 12 14 24 26 28; 1997-12: 8 10 12 22";
    list.add("1997-09-01", &until, FAR, expected);
    let count = other(&format!(r#""count": 8, {}"#, by_day("tu th")));
    list.add("1997-09-02", &count, FAR, "1997-09: 2 4 16 18 30; 1997-10: 2 14 16");
}

fn monthly_on_the_nth_weekday(list: &mut Examples) {
    let first = |end: &str| format!(r#""frequency": "monthly", {end}, {}"#, by_day("1fr"));
    let year = "1997-09: 5; 1997-10: 3; 1997-11: 7; 1997-12: 5";
    let next = "1998-01: 2; 1998-02: 6; 1998-03: 6; 1998-04: 3; 1998-05: 1; 1998-06: 5";
    list.add("1997-09-05", &first(r#""count": 10"#), FAR, &format!("{year}; {next}"));
    list.add("1997-09-05", &first(r#""until": "1997-12-23T19:00:00""#), FAR, year);
    let sundays = format!(r#""frequency": "monthly", "interval": 2, "count": 10, {}"#, by_day("1su -1su"));
    list.add("1997-09-07", &sundays, FAR, "1997-09: 7 28; 1997-11: 2 30; 1998-01: 4 25; 1998-03: 1 29; 1998-05: 3 31");
    let mondays = format!(r#""frequency": "monthly", "count": 6, {}"#, by_day("-2mo"));
    list.add("1997-09-22", &mondays, FAR, "1997-09: 22; 1997-10: 20; 1997-11: 17; 1997-12: 22; 1998-01: 19; 1998-02: 16");
}

fn monthly_on_days_of_the_month(list: &mut Examples) {
    let rule = |more: &str| format!(r#""frequency": "monthly", {more}"#);
    let last = rule(r#""byMonthDay": [-3]"#);
    list.add("1997-09-28", &last, "1998-03-01", "1997-09: 28; 1997-10: 29; 1997-11: 28; 1997-12: 29; 1998-01: 29; 1998-02: 26");
    let two = rule(r#""count": 10, "byMonthDay": [2, 15]"#);
    list.add("1997-09-02", &two, FAR, "1997-09: 2 15; 1997-10: 2 15; 1997-11: 2 15; 1997-12: 2 15; 1998-01: 2 15");
    let ends = rule(r#""count": 10, "byMonthDay": [1, -1]"#);
    list.add("1997-09-30", &ends, FAR, "1997-09: 30; 1997-10: 1 31; 1997-11: 1 30; 1997-12: 1 31; 1998-01: 1 31; 1998-02: 1");
    let eighteen = rule(r#""interval": 18, "count": 10, "byMonthDay": [10, 11, 12, 13, 14, 15]"#);
    list.add("1997-09-10", &eighteen, FAR, "1997-09: 10-15; 1999-03: 10-13");
    let invalid = rule(r#""byMonthDay": [15, 30], "count": 5"#);
    list.add("2007-01-15", &invalid, FAR, "2007-01: 15 30; 2007-02: 15; 2007-03: 15 30");
}

fn monthly_on_weekdays(list: &mut Examples) {
    let tuesdays = format!(r#""frequency": "monthly", "interval": 2, {}"#, by_day("tu"));
    let expected = "1997-09: 2 9 16 23 30; 1997-11: 4 11 18 25; 1998-01: 6 13 20 27; 1998-03: 3 10 17 24 31";
    list.add("1997-09-02", &tuesdays, "1998-05-01", expected);
    let saturdays = format!(r#""frequency": "monthly", "byMonthDay": [7, 8, 9, 10, 11, 12, 13], {}"#, by_day("sa"));
    let expected =
        "1997-09: 13; 1997-10: 11; 1997-11: 8; 1997-12: 13; 1998-01: 10; 1998-02: 7; 1998-03: 7; 1998-04: 11; 1998-05: 9; 1998-06: 13";
    list.add("1997-09-13", &saturdays, "1998-07-01", expected);
}

fn friday_the_thirteenth(list: &mut Examples) {
    let rule = format!(r#"{{"@type": "RecurrenceRule", "frequency": "monthly", "byMonthDay": [13], {}}}"#, by_day("fr"));
    let overrides = r#"{"1997-09-02T09:00:00": {"excluded": true}}"#;
    let text = event("1997-09-02T09:00:00", &format!(r#", "recurrenceRules": [{rule}], "recurrenceOverrides": {overrides}"#));
    list.add_text(&text, "2001-01-01", "1998-02: 13; 1998-03: 13; 1998-11: 13; 1999-08: 13; 2000-10: 13");
}

fn yearly_in_some_months(list: &mut Examples) {
    let june = r#""frequency": "yearly", "count": 10, "byMonth": ["6", "7"]"#;
    let expected =
        "1997-06: 10; 1997-07: 10; 1998-06: 10; 1998-07: 10; 1999-06: 10; 1999-07: 10; 2000-06: 10; 2000-07: 10; 2001-06: 10; 2001-07: 10";
    list.add("1997-06-10", june, FAR, expected);
    let spring = r#""frequency": "yearly", "interval": 2, "count": 10, "byMonth": ["1", "2", "3"]"#;
    let expected =
        "1997-03: 10; 1999-01: 10; 1999-02: 10; 1999-03: 10; 2001-01: 10; 2001-02: 10; 2001-03: 10; 2003-01: 10; 2003-02: 10; 2003-03: 10";
    list.add("1997-03-10", spring, FAR, expected);
}

fn yearly_on_weekdays(list: &mut Examples) {
    let twentieth = format!(r#""frequency": "yearly", {}"#, by_day("20mo"));
    list.add("1997-05-19", &twentieth, "2000-01-01", "1997-05: 19; 1998-05: 18; 1999-05: 17");
    let march = format!(r#""frequency": "yearly", "byMonth": ["3"], {}"#, by_day("th"));
    list.add("1997-03-13", &march, "2000-01-01", "1997-03: 13 20 27; 1998-03: 5 12 19 26; 1999-03: 4 11 18 25");
    let summer = format!(r#""frequency": "yearly", "byMonth": ["6", "7", "8"], {}"#, by_day("th"));
    let expected = "1997-06: 5 12 19 26; 1997-07: 3 10 17 24 31; 1997-08: 7 14 21 28; \
                    1998-06: 4 11 18 25; 1998-07: 2 9 16 23 30; 1998-08: 6 13 20 27; \
                    1999-06: 3 10 17 24; 1999-07: 1 8 15 22 29; 1999-08: 5 12 19 26";
    list.add("1997-06-05", &summer, "2000-01-01", expected);
}

fn election_day(list: &mut Examples) {
    let rule = format!(r#""frequency": "yearly", "interval": 4, "byMonth": ["11"], "byMonthDay": [2, 3, 4, 5, 6, 7, 8], {}"#, by_day("tu"));
    list.add("1996-11-05", &rule, "2005-01-01", "1996-11: 5; 2000-11: 7; 2004-11: 2");
}

fn set_positions(list: &mut Examples) {
    let third = format!(r#""frequency": "monthly", "count": 3, "bySetPosition": [3], {}"#, by_day("tu we th"));
    list.add("1997-09-04", &third, FAR, "1997-09: 4; 1997-10: 7; 1997-11: 6");
    let before_last = format!(r#""frequency": "monthly", "bySetPosition": [-2], {}"#, by_day("mo tu we th fr"));
    let expected = "1997-09: 29; 1997-10: 30; 1997-11: 27; 1997-12: 30; 1998-01: 29; 1998-02: 26; 1998-03: 30";
    list.add("1997-09-29", &before_last, "1998-04-01", expected);
}
