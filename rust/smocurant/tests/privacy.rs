//! What a planner must not be able to tell apart: pairs of private events that agree on what is shown, and any two secret events.

mod support;
use expander::Sheet;
use generator::{pairs, Case, Random, ZoneNumbers};
use support::{cases, library, Outcome};

/// All that can be learned of a text: tables in several buffers, titles and descriptions.
type Learned = (Vec<Outcome>, Vec<(u32, u64, u64)>);

fn learned(case: &Case, text: &[u8], seed: u64) -> Learned {
    let case = Case { text: text.to_vec(), ..case.clone() };
    let tables = [0, 11, 12, 40, 3_000, 100_000].map(|room| library(&case, room, seed)).into();
    let texts = case.dates.iter().flat_map(|date| [smocurant::raw::title(text, *date), smocurant::raw::description(text, *date)]).collect();
    (tables, texts)
}

/// The number of records, by the independent reader.
fn records(outcome: &Outcome) -> u64 {
    Sheet::read(outcome.table()).unwrap().count()
}

#[test]
fn pairs_look_the_same() {
    for seed in 0..cases() / 10 {
        let random = &mut Random::new(seed);
        let (_, [first, second]) = if seed % 3 == 0 { pairs::secret(random) } else { pairs::private(random) };
        let case = Case::new(seed);
        let (one, other) = (learned(&case, &first, seed), learned(&case, &second, seed));
        assert!(one == other, "seed {seed}:\n{}\n{}", support::shown(&first), support::shown(&second));
        assert!(one.1.iter().all(|(_, start, length)| (*start, *length) == (0, 0)), "seed {seed}: texts of a private event");
    }
}

/// A secret event shows no zone: another table's name changes nothing.
#[test]
fn a_secret_event_has_no_zone() {
    for seed in 0..500 {
        let random = &mut Random::new(seed);
        let (_, [text, _]) = pairs::secret(random);
        let mut case = Case::new(seed);
        let own = learned(&case, &text, seed);
        case.zone.name = b"Elsewhere".to_vec();
        assert!(own == learned(&case, &text, seed), "seed {seed}");
        assert!(own.0.iter().all(|outcome| outcome.answer != 12), "seed {seed}");
    }
}

/// A private event with a patched date, its lengths spelled as given.
fn closure((own, patched): (&str, &str)) -> Vec<u8> {
    format!(
        r#"{{"@type":"Event","uid":"{own}","updated":"2026-01-01T00:00:00Z","privacy":"private","title":"{patched}","start":"2026-12-21T00:00:00",
        "timeZone":"Z","duration":"{own}","recurrenceRules":[{{"@type":"RecurrenceRule","frequency":"daily","count":7}}],
        "recurrenceOverrides":{{"2026-12-24T00:00:00":{{"duration":"{patched}"}}}}}}"#
    )
    .into_bytes()
}

/// What can be learned of closures whose zone has another offset from 2026-12-23T12:00:00Z to 2026-12-27T12:00:00Z.
fn learned_of_closures(offset: i64, lengths: &[(&str, &str)]) -> Vec<Learned> {
    let zone =
        ZoneNumbers { name: b"Z".to_vec(), initial_offset: 0, instants: vec![1_798_027_200, 1_798_372_800], offsets: vec![offset, 0] };
    let case = Case { zone, window: (1_700_000_000, 1_900_000_000), ..Case::new(0) };
    let all: Vec<_> = lengths.iter().map(|lengths| learned(&case, &closure(*lengths), 0)).collect();
    assert!(all.iter().all(|(tables, _)| (tables[4].answer, records(&tables[4])) == (0, 7)));
    all
}

/// Two lengths agree where both parts are equal, however they are spelled.
#[test]
fn lengths_that_agree_look_the_same() {
    for lengths in [
        [("P1D", "P1W"), ("P0W1D", "P7D"), ("p01dt0s", "P1WT0H")],
        [("PT24H", "PT168H"), ("PT1440M", "PT604800S"), ("PT23H60M", "PT167H59M60S")],
        [("P1DT24H", "P1W1DT36H"), ("P1DT86400S", "P8DT2160M"), ("P0W1DT1440M", "P1W1DT35H60M")],
        [("P0D", "PT1H"), ("PT0S", "PT60M"), ("P0WT0M", "P0DT3600S")],
    ] {
        for offset in [0, 3_600, -3_600, 86_399, -86_399] {
            let all = learned_of_closures(offset, &lengths);
            assert!(all.iter().all(|one| *one == all[0]), "{lengths:?} {offset}");
        }
    }
}

/// A day is not 24 hours: such lengths do not agree. Their tables are equal where the clock does not change, and differ where it does.
#[test]
fn a_day_and_24_hours_do_not_agree() {
    let lengths = [("P1D", "P1W"), ("PT24H", "P1W"), ("P1D", "PT168H"), ("PT24H", "PT168H")];
    let all = learned_of_closures(0, &lengths);
    assert!(all.iter().all(|one| *one == all[0]));
    for offset in [3_600, -3_600, 7] {
        let all = learned_of_closures(offset, &lengths);
        for (place, one) in all.iter().enumerate() {
            assert!(all[..place].iter().all(|other| other != one), "{:?} {offset}", lengths[place]);
        }
    }
}

/// Every request for words about a secret event is answered 14, also of a date that is an occurrence; its table has no records.
#[test]
fn a_secret_event_gives_nothing() {
    for seed in 0..500 {
        let (model, [text, _]) = pairs::secret(&mut Random::new(seed));
        let mut case = Case::new(seed);
        case.dates.push(model.start);
        let (tables, texts) = learned(&case, &text, seed);
        assert!(texts.iter().all(|told| *told == (14, 0, 0)), "seed {seed}");
        assert!(tables.iter().all(|table| table.answer != 0 || records(table) == 0), "seed {seed}");
    }
}
