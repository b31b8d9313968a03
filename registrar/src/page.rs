//! A plan, and a run of it, on one page of HTML: one file that asks for nothing
//! else and has no script.

mod steps;

use crate::draft::Draft;
use crate::journal_text;
use crate::picture;
use crate::picture::svg::{escape, FONTS};
use crate::run::Run;
use crate::tell;
use std::fmt::Write;

/// What stands on the page.
pub struct Page<'a> {
    pub draft: &'a Draft,
    /// The steps with their retractions, as text.
    pub listing: &'a str,
    pub journal: Option<Journal<'a>>,
}

/// A journal that was run.
pub struct Journal<'a> {
    pub run: &'a Run<'a>,
    pub told: Vec<Told>,
    /// What would be taken back now, as text.
    pub due: &'a str,
}

/// A line of the journal, told.
#[derive(Clone, Debug, Default, PartialEq, Eq)]
pub struct Told {
    /// Which call of the run it is, counted from 0; none for the plan's line and
    /// the last.
    pub call: Option<usize>,
    /// The line that `unwind` prints.
    pub printed: String,
    /// The line as a journal's text has it.
    pub text: String,
    pub meaning: String,
}

impl Journal<'_> {
    /// The journal of a run, told line by line; the last argument is what would be
    /// taken back now.
    #[must_use]
    pub fn of<'a>(draft: &Draft, run: &'a Run<'a>, due: &'a str) -> Journal<'a> {
        let told = |(row, one): (usize, tell::Told)| {
            let call = row.checked_sub(1).filter(|&call| call < run.done.len());
            let text = call.map(|call| journal_text::line_of(run.done[call].call, draft));
            Told {
                call,
                printed: one.printed,
                text: text.unwrap_or_default(),
                meaning: one.meaning,
            }
        };
        let rows = tell::tell(draft, run, &[]).into_iter().enumerate();
        let told = rows.map(told).collect();
        Journal { run, told, due }
    }
}

const STYLE: &str = "\
html{background:#fff;color:#1a1a1a;font-size:16px;line-height:1.5}
body{max-width:76rem;margin:0 auto;padding:1rem}
h1{font-size:1.7rem;line-height:1.2;margin:.5rem 0}
h2{font-size:1.25rem;margin:2rem 0 .5rem;border-bottom:1px solid #8b98a5}
h3{font-size:1rem;margin:.5rem 0}
a{color:#1f3a5f}
nav a{margin-right:1rem;white-space:nowrap}
.wide{overflow-x:auto}
pre{font:13px/1.45 'DejaVu Sans Mono',Menlo,Consolas,monospace;background:#f1f4f7;border:1px solid #c3cad1;padding:.75rem;overflow-x:auto}
code{font:13px 'DejaVu Sans Mono',Menlo,Consolas,monospace;white-space:nowrap}
table{border-collapse:collapse}
th,td{text-align:left;vertical-align:top;padding:.25rem .75rem .25rem 0;border-bottom:1px solid #c3cad1}
.moment{display:none}
.moment:target,.moment.last{display:block}
.moment:target~.last{display:none}
.moment nav{margin:.5rem 0}
.moment svg{max-width:100%;height:auto}
.now-forward{fill:#2f6fa7;fill-opacity:.22;stroke:#1f3a5f;stroke-width:4}
.now-undoing{fill:#c2570c;fill-opacity:.18;stroke:#9a3412;stroke-width:4;stroke-dasharray:8 4}
.holds{color:#9a3412}
@media (max-width:40rem){.told thead{display:none}.told tr{display:block;border-bottom:1px solid #c3cad1}.told td{display:inline-block;border:0}.told td:last-child{display:block}}
@media print{body{max-width:none;padding:0;font-size:11pt}nav{display:none}svg{max-width:100%;height:auto}.wide,pre{overflow:visible}pre{white-space:pre-wrap}tr,svg{break-inside:avoid}}
";

/// How wide a run's picture may be before it goes on below.
const MOST_WIDTH: i32 = 1150;

/// The decisions and the telling.
const PROVED: &str = "Whether the plan is accepted, what each call did or why it was refused, what may be taken back \
and by whom, and which day a date is: all of this was decided by the calls of the library, which are proved to \
keep the rules. The words, tables and pictures on this page, and what goes side by side in one round, only tell it; they are tested, not proved. Where they and \
the plan's file or the printed lines should ever disagree, the file and the lines count.";

/// The page.
#[must_use]
pub fn page(parts: &Page) -> String {
    let name = &parts.draft.names.plan;
    let title = if name.name.is_empty() {
        "A plan"
    } else {
        name.said()
    };
    let title = escape(title);
    let mut body = format!("<header>\n<h1>{title}</h1>\n");
    if !name.words.is_empty() {
        let _ = writeln!(body, "<p>Plan <code>{}</code></p>", escape(&name.name));
    }
    let mut sections = vec![
        section("picture", "The plan", &wide(&picture::plan(parts.draft))),
        section(
            "listing",
            "Each step with its retraction",
            &pre(parts.listing),
        ),
    ];
    if let Some(journal) = &parts.journal {
        sections.extend(journal_sections(parts.draft, journal));
    }
    let proved = format!("<p>{PROVED}</p>\n");
    sections.push(section(
        "proved",
        "What is proved, and what is only told",
        &proved,
    ));
    body.push_str("<nav aria-label=\"Contents\">\n");
    for (id, heading, _) in &sections {
        let _ = writeln!(body, "<a href=\"#{id}\">{heading}</a>");
    }
    body.push_str("</nav>\n</header>\n<main>\n");
    for (id, heading, inside) in &sections {
        let _ = write!(
            body,
            "<section id=\"{id}\">\n<h2>{heading}</h2>\n{inside}</section>\n"
        );
    }
    format!(
        "<!DOCTYPE html>\n<html lang=\"en\">\n<head>\n<meta charset=\"utf-8\"/>\n\
         <meta name=\"viewport\" content=\"width=device-width, initial-scale=1\"/>\n\
         <title>{title}</title>\n<style>\nhtml{{font-family:{FONTS}}}\n{STYLE}</style>\n</head>\n<body>\n{body}</main>\n</body>\n</html>\n"
    )
}

/// A section's id, its heading and what is inside.
type Section = (&'static str, &'static str, String);

fn section(id: &'static str, heading: &'static str, inside: &str) -> Section {
    (id, heading, inside.to_string())
}

fn wide(inside: &str) -> String {
    format!("<div class=\"wide\">\n{inside}</div>\n")
}

fn pre(text: &str) -> String {
    let lines: Vec<String> = text.lines().map(escape).collect();
    format!("<pre>{}</pre>\n", lines.join("\n"))
}

fn journal_sections(draft: &Draft, journal: &Journal) -> Vec<Section> {
    let timeline = picture::banded(draft, journal.run, MOST_WIDTH);
    vec![
        section("journal", "The journal", &wide(&table(&journal.told))),
        section("timeline", "The run", &wide(&timeline)),
        section("steps", "Call by call", &steps::steps(draft, journal)),
        section("due", "What would be taken back now", &pre(journal.due)),
    ]
}

fn table(told: &[Told]) -> String {
    let mut table =
        "<table class=\"told\">\n<thead><tr><th scope=\"col\">Printed</th><th scope=\"col\">Journal</th>\
                     <th scope=\"col\">What it means</th></tr></thead>\n<tbody>\n"
            .to_string();
    for told in told {
        let printed = format!("<code>{}</code>", escape(&told.printed));
        let printed = match told.call {
            Some(call) => format!("<a href=\"#{}\">{printed}</a>", steps::id(call + 1)),
            None => printed,
        };
        let _ = writeln!(
            table,
            "<tr><td>{printed}</td><td><code>{}</code></td><td>{}</td></tr>",
            escape(&told.text),
            escape(&told.meaning)
        );
    }
    table + "</tbody>\n</table>\n"
}
