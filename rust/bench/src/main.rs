//! Times of the library beside the independent expander and, where it is installed, libical, in one run. Prints Markdown.
//!
//!     cargo run --release -p bench
//!     cargo run --release -p bench -- weeks
//!     cargo run --release -p bench -- sheets
//!     cargo run --release -p bench -- lookups
//!
//! The second line runs the section on weeks alone, the third that on reading sheets, the fourth that on looking up offsets in zone tables.
//!
//! A time is processor time, and the best of some batches, as everything else that a machine does only makes it longer. Times are of this
//! machine alone; the ratios say more.

mod libical;
mod lookups;
mod measure;
mod searches;
mod sheets;
mod texts;
mod weeks;
mod workloads;

use measure::{in_turns, nanoseconds};
use smocurant::Table;
use std::hint::black_box;
use workloads::Workload;

/// The sections by their names, in the order in which they are printed.
const SECTIONS: [(&str, fn()); 4] =
    [("expansions", print_expansions), ("weeks", weeks::print), ("sheets", sheets::print), ("lookups", lookups::print)];

fn main() {
    let only = std::env::args().nth(1);
    let is_asked_for = |name: &str| only.as_ref().is_none_or(|only| only == name);
    if !SECTIONS.iter().any(|(name, _)| is_asked_for(name)) {
        eprintln!("bench: the sections are {}", SECTIONS.map(|(name, _)| name).join(", "));
        std::process::exit(2);
    }
    println!("Machine: {}.\n", measure::machine());
    SECTIONS.iter().filter(|(name, _)| is_asked_for(name)).for_each(|(_, print)| print());
}

/// Events in windows.
fn print_expansions() {
    let libical = libical::Libical::load();
    if libical.is_none() {
        println!("libical is not installed, so its column is empty.\n");
    }
    println!("## Whole calls\n");
    println!("| Workload | Text, bytes | Records | Library, ms | calls/s | ns/record | ns/byte | Expander / library | libical / library |");
    println!("|---|---|---|---|---|---|---|---|---|");
    for workload in workloads::all() {
        print_line(&workload, libical.as_ref());
    }
    if let Some(libical) = &libical {
        print_beside(libical);
    }
    print_counts();
    println!("\n## Growth\n");
    println!("| Workload | Text, bytes | Records | Library, ms | To the line before |");
    println!("|---|---|---|---|---|");
    print_growth(&workloads::growing_windows());
    workloads::growing_texts().iter().for_each(|texts| print_growth(texts));
}

/// One workload in all programs.
fn print_line(workload: &Workload, libical: Option<&libical::Libical>) {
    let mut buffer = vec![0; workload.room()];
    let (answer, length) = workload.library(&mut buffer);
    assert_eq!((answer, length), workload.expander(&mut buffer), "{}", workload.name);
    let records = spans(&buffer[..length as usize]).len();
    let mut other_buffer = buffer.clone();
    let rule = libical.zip(workload.rule.as_ref());
    let [library, expander, other] = in_turns([
        &mut || {
            black_box(workload.library(&mut buffer));
        },
        &mut || {
            black_box(workload.expander(&mut other_buffer));
        },
        &mut || {
            black_box(rule.map(|(libical, rule)| libical.expand(rule, records)));
        },
    ]);
    let other = rule.map(|_| other);
    println!(
        "| {} | {} | {} | {:.3} | {:.0} | {} | {:.1} | {:.2} | {} |",
        workload.name,
        workload.text.len(),
        if answer == 0 { records.to_string() } else { format!("answer {answer}") },
        library / 1e6,
        1e9 / library,
        if records >= 10 { format!("{:.1}", library / records as f64) } else { String::new() },
        library / workload.text.len() as f64,
        expander / library,
        other.map_or(String::new(), |other| format!("{:.1}", other / library)),
    );
}

/// The start and the end of each record; none where the call was refused.
fn spans(sheet: &[u8]) -> Vec<(i64, i64)> {
    Table::read(sheet).map_or(Vec::new(), |table| table.records().map(|record| (record.start, record.end)).collect())
}

/// Events in London, with libical doing the same work: from a text and a zone at hand to the start and the end of each occurrence in UTC.
fn print_beside(libical: &libical::Libical) {
    println!("\n## The same work by libical\n");
    println!("| Event in London | Records | Library, us | its rule, us | libical, us | its rule, us | Whole calls | Rules |");
    println!("|---|---|---|---|---|---|---|---|");
    for (workload, text) in workloads::in_london() {
        let mut buffer = vec![0; workload.room()];
        let (_, length) = workload.library(&mut buffer);
        let spans = spans(&buffer[..length as usize]);
        let records = spans.len();
        assert_eq!(libical.occurrences(&text, workload.window), spans, "{}", workload.name);
        let empty = workload.without_window();
        let mut empty_buffer = vec![0; workload.room()];
        let [library, without, other, other_rule] = in_turns([
            &mut || {
                black_box(workload.library(&mut buffer));
            },
            &mut || {
                black_box(empty.library(&mut empty_buffer));
            },
            &mut || {
                black_box(libical.occurrences(&text, workload.window));
            },
            &mut || {
                black_box(workload.rule.as_ref().map(|rule| libical.expand(rule, records)));
            },
        ]);
        let library_rule = library - without;
        println!(
            "| {} | {records} | {:.1} | {:.1} | {:.0} | {:.0} | {:.0} | {:.0} |",
            workload.name,
            library / 1e3,
            library_rule / 1e3,
            other / 1e3,
            other_rule / 1e3,
            other / library,
            other_rule / library_rule,
        );
    }
}

/// Counts that are never used up, of the library alone: what is asked of them is a bound, and not to be faster than another.
fn print_counts() {
    println!("\n## Counts from 1601 on\n");
    println!("| 16 rules, each | the year 2026, ms | the year 9998, ms |");
    println!("|---|---|---|");
    for (name, workloads) in workloads::counted() {
        let [near, far] = workloads.map(|workload| {
            let mut buffer = vec![0; workload.room()];
            nanoseconds(|| workload.library(&mut buffer)) / 1e6
        });
        println!("| {name} | {near:.2} | {far:.2} |");
    }
}

/// Workloads of which each is twice the one before.
fn print_growth(workloads: &[Workload]) {
    let mut before = None;
    for workload in workloads {
        let mut buffer = vec![0; workload.room()];
        let (_, length) = workload.library(&mut buffer);
        let time = nanoseconds(|| workload.library(&mut buffer));
        let ratio = before.map_or(String::new(), |before: f64| format!("{:.2}", time / before));
        let records = spans(&buffer[..length as usize]).len();
        println!("| {} | {} | {records} | {:.3} | {ratio} |", workload.name, workload.text.len(), time / 1e6);
        before = Some(time);
    }
}
