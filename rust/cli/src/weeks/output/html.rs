//! A page to print: the picture, the notes, and the dates of weeks without uploads. All its text is dates, numbers and the program's own words, so nothing
//! has to be escaped.

use super::{svg, TITLE};
use crate::weeks::dates;
use crate::weeks::report::Report;
use smocurant::Week;
use std::io::{self, Write};

const STYLE: &str = r#"<style>
body { font-family: "Helvetica Neue", Helvetica, Arial, "Liberation Sans", sans-serif; color: #1c1c1c; background: #ffffff; max-width: 66rem; margin: 1.5rem auto; padding: 0 1rem; }
h1 { font-size: 1.5rem; margin: 0 0 0.3rem; }
h2 { font-size: 1.1rem; margin: 0 0 0.4rem; }
p { margin: 0 0 0.8rem; }
svg { display: block; width: 100%; height: auto; break-inside: avoid; print-color-adjust: exact; -webkit-print-color-adjust: exact; }
.lists { display: flex; flex-wrap: wrap; gap: 1rem 4rem; margin-top: 1rem; }
table { border-collapse: collapse; font-variant-numeric: tabular-nums; }
th, td { text-align: left; padding: 0.2rem 1.2rem 0.2rem 0; border-bottom: 1px solid #767676; }
tr { break-inside: avoid; }
@page { size: A4 landscape; margin: 12mm; }
@media print {
body { font-size: 10pt; max-width: none; margin: 0; padding: 0; }
svg { width: 82%; }
h2 { break-after: avoid; }
}
</style>"#;

/// The whole page.
pub fn write(report: &Report, out: &mut dyn Write) -> io::Result<()> {
    writeln!(out, "<!DOCTYPE html>\n<html lang=\"en\">\n<head>\n<meta charset=\"utf-8\">")?;
    writeln!(out, r#"<meta name="viewport" content="width=device-width, initial-scale=1">"#)?;
    writeln!(out, "<title>{TITLE}</title>\n{STYLE}\n</head>\n<body>\n<h1>{TITLE}</h1>\n<p>{}</p>", report.span())?;
    svg::write_inline(report, out)?;
    report.notes.iter().try_for_each(|note| writeln!(out, "<p>{note}</p>"))?;
    writeln!(out, "<div class=\"lists\">")?;
    table("Missing weeks", report, Week::Missing, out)?;
    table("Shut weeks", report, Week::Shut, out)?;
    writeln!(out, "</div>\n</body>\n</html>")
}

/// The dates of the weeks of a kind.
fn table(heading: &str, report: &Report, kind: Week, out: &mut dyn Write) -> io::Result<()> {
    writeln!(out, "<section>\n<h2>{heading}</h2>")?;
    let mut weeks = report.weeks_of(kind).peekable();
    if weeks.peek().is_none() {
        return writeln!(out, "<p>None.</p>\n</section>");
    }
    writeln!(
        out,
        "<table>\n<thead><tr><th scope=\"col\">Week</th><th scope=\"col\">Monday</th><th scope=\"col\">Sunday</th></tr></thead>"
    )?;
    writeln!(out, "<tbody>")?;
    for week in weeks {
        let (number, monday, sunday) = (week.number, dates::day(week.monday), week.sunday());
        writeln!(out, "<tr><th scope=\"row\">{number}</th><td>{monday}</td><td>{sunday}</td></tr>")?;
    }
    writeln!(out, "</tbody>\n</table>\n</section>")
}
