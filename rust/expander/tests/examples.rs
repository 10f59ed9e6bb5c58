//! The dates that documents give for their examples.

mod support;
use support::{ids_until, show};

#[test]
fn examples() {
    for example in generator::examples::all() {
        let event = expander::Event::read(example.text.as_bytes()).unwrap_or_else(|refusal| panic!("{refusal:?}: {}", example.text));
        let ids = event.ids(generator::dates::FIRST..example.end);
        assert_eq!(show(&ids), show(&example.ids), "{}", example.text);
    }
}

#[test]
fn a_rule_without_end_goes_on_to_9998() {
    let all_day = support::recurring("1900-04-01T00:00:00", r#""frequency": "yearly""#);
    assert_eq!(ids_until(&all_day, "9998-12-31").len(), 9998 - 1900 + 1);
}
