//! Two programs run on one plan and one journal, as `unwind` is run, and the
//! first line in which they differ, in words.

mod program;

use crate::draft::Draft;
use crate::journal_text;
use crate::look::Standings;
use crate::phrase;
use crate::printed;
use crate::run::Run;
use crate::standing::{self, Mode};
use crate::tell::Told;
use program::Output;
use std::path::Path;

/// What both programs are given, and what the proved calls say of it.
pub struct Given<'a> {
    pub draft: &'a Draft,
    /// The bytes of the plan and of the journal.
    pub plan: &'a [u8],
    pub journal: &'a [u8],
    /// Every line as the proved calls have it.
    pub told: &'a [Told],
    /// The run, unless the plan or the journal is refused as a whole.
    pub run: Option<&'a Run<'a>>,
}

/// What came out.
#[derive(Clone, Debug, PartialEq, Eq)]
pub struct Comparison {
    /// Whether both printed the same bytes.
    pub alike: bool,
    /// Whether each printed what the proved calls say.
    pub proved: [bool; 2],
    /// All of it in words.
    pub text: String,
}

/// Runs both programs, each in a folder of its own. A name without a slash is
/// looked for where commands are. A program that cannot be run is told as a
/// sentence.
pub fn compare(given: &Given<'_>, programs: [&Path; 2]) -> Result<Comparison, String> {
    let outputs = [
        program::run(programs[0], given.plan, given.journal)?,
        program::run(programs[1], given.plan, given.journal)?,
    ];
    let names = names(programs);
    let told = given.told.iter().map(|told| told.printed.clone() + "\n");
    let told: Vec<Vec<u8>> = told.map(String::into_bytes).collect();
    let [one, other] = [&outputs[0].lines, &outputs[1].lines];
    let between = first_difference(one, other);
    let from_proved = [first_difference(one, &told), first_difference(other, &told)];
    let mut text = match (between, from_proved[0]) {
        (Some(line), _) => differing(given, &names, &outputs, line),
        (None, Some(line)) => both_differ(given, &names, &outputs, line),
        (None, None) => format!(
            "{} and {} print the same, {}, and so it is by the proved calls.\n",
            names[0],
            names[1],
            phrase::count(one.len(), "line")
        ),
    };
    if between.is_some() {
        for (name, line) in names.iter().zip(from_proved) {
            text += &by_proved(name, line);
        }
    }
    for (name, output) in names.iter().zip(&outputs) {
        if let Some(status) = &output.status {
            text += &format!("{name} ended with {status}.\n");
        }
    }
    Ok(Comparison {
        alike: between.is_none(),
        proved: from_proved.map(|line| line.is_none()),
        text,
    })
}

/// What the programs are called, told apart if they are the same.
fn names(programs: [&Path; 2]) -> [String; 2] {
    let [one, other] = programs.map(|path| path.display().to_string());
    if one == other {
        return [format!("{one} (A)"), format!("{other} (B)")];
    }
    [one, other]
}

/// The first line in which two outputs differ, counted from 0.
fn first_difference(one: &[Vec<u8>], other: &[Vec<u8>]) -> Option<usize> {
    let lines = one.len().max(other.len());
    (0..lines).find(|&line| one.get(line) != other.get(line))
}

/// How a program stands to the proved calls, for lines that differ.
fn by_proved(name: &str, line: Option<usize>) -> String {
    match line {
        None => format!("{name} prints what the proved calls say.\n"),
        Some(line) => {
            let line = line + 1;
            format!("{name} differs from the proved calls, first in line {line}.\n")
        }
    }
}

/// The programs differ from each other in this line.
fn differing(given: &Given<'_>, names: &[String; 2], outputs: &[Output; 2], line: usize) -> String {
    let head = format!(
        "{} and {} differ, first in line {}, {}:\n",
        names[0],
        names[1],
        line + 1,
        belongs(given, line)
    );
    let shown = [
        (names[0].as_str(), outputs[0].lines.get(line)),
        (names[1].as_str(), outputs[1].lines.get(line)),
    ];
    head + &both_lines(given, &shown) + &stood(given, line)
}

/// The programs are alike, but differ from the proved calls in this line.
fn both_differ(
    given: &Given<'_>,
    names: &[String; 2],
    outputs: &[Output; 2],
    line: usize,
) -> String {
    let lines = phrase::count(outputs[0].lines.len(), "line");
    let head = format!(
        "{} and {} print the same, {lines}, but differ from the proved calls, first in line {}, {}:\n",
        names[0],
        names[1],
        line + 1,
        belongs(given, line)
    );
    let proved = given.told.get(line).map(|told| told.printed.clone() + "\n");
    let proved = proved.map(String::into_bytes);
    let shown = [
        ("both programs", outputs[0].lines.get(line)),
        ("proved calls", proved.as_ref()),
    ];
    head + &both_lines(given, &shown) + &stood(given, line)
}

/// Which record of the journal a line is about.
fn belongs(given: &Given<'_>, line: usize) -> String {
    let run = match given.run {
        Some(run) => run,
        None => return "where all is refused in one".to_string(),
    };
    let call = line.checked_sub(1).and_then(|call| run.done.get(call));
    match call {
        Some(done) => {
            let words = journal_text::line_of(done.call, given.draft);
            let at = given.told.get(line).and_then(|told| told.line);
            let at = at.map_or_else(String::new, |at| format!(", line {at} of its text"));
            format!(
                "for record {} of the journal{at}, '{}'",
                line - 1,
                words.trim()
            )
        }
        None if line == 0 => "for the plan".to_string(),
        None if line + 1 == given.told.len() => "the last".to_string(),
        None if line >= given.told.len() => "where there is no line any more".to_string(),
        None => "for the broken record of the journal".to_string(),
    }
}

/// Both lines, each with its meaning, in columns.
fn both_lines(given: &Given<'_>, shown: &[(&str, Option<&Vec<u8>>); 2]) -> String {
    let cells = shown.map(|(name, line)| match line {
        None => (
            name,
            String::new(),
            "nothing, its output has ended".to_string(),
        ),
        Some(line) => {
            let (text, meaning) = read(given.draft, line);
            (name, text, meaning)
        }
    });
    let width = |cell: fn(&(&str, String, String)) -> usize| cells.iter().map(cell).max();
    let name_width = width(|cell| cell.0.chars().count()).unwrap_or(0);
    let text_width = width(|cell| cell.1.chars().count()).unwrap_or(0);
    let row = |(name, text, meaning): &(&str, String, String)| {
        format!("  {name:name_width$}  {text:text_width$}  {meaning}\n")
    };
    cells.iter().map(row).collect()
}

/// The most characters of a line that are shown.
const SHOWN: usize = 60;

/// A printed line as it is shown, and what it means.
fn read(draft: &Draft, line: &[u8]) -> (String, String) {
    let text = String::from_utf8_lossy(line);
    let (text, ended) = match text.strip_suffix('\n') {
        Some(text) => (text, true),
        None => (&text[..], false),
    };
    let mut meaning = printed::meaning(draft, text);
    if !ended {
        meaning += ", without its line feed";
    }
    let plain = text.chars().flat_map(char::escape_debug);
    let plain: String = plain
        .collect::<String>()
        .replace("\\'", "'")
        .replace("\\\"", "\"");
    let mut shown: String = plain.chars().take(SHOWN).collect();
    if shown.len() < plain.len() {
        shown += "...";
    }
    (shown, meaning)
}

/// How the awake tracks stood before a line.
fn stood(given: &Given<'_>, line: usize) -> String {
    let run = match given.run {
        Some(run) if line > 0 => run,
        _ => return String::new(),
    };
    match run.done.get(line - 1) {
        Some(done) => "Before it:\n".to_string() + &standings(given.draft, &done.before),
        None => "At the end:\n".to_string() + &standings(given.draft, &standing::of(&run.ledger)),
    }
}

/// Every awake track on a line: mode, state, and what it holds.
fn standings(draft: &Draft, standings: &Standings) -> String {
    let mut rows = Vec::new();
    for (track, standing) in standings.iter().enumerate() {
        if let Some(standing) = standing {
            let mode = match standing.mode {
                Mode::Forward => "forward",
                Mode::Undoing => "undoing",
            };
            let held = phrase::entries(draft, standing.entries.iter().rev().copied());
            let held = if held.is_empty() {
                "nothing".to_string()
            } else {
                held
            };
            let state = draft.state(standing.state);
            let name = draft.track(track as u16);
            rows.push((name, format!("{mode} in {state}, holds {held}")));
        }
    }
    if rows.is_empty() {
        return "  every track is asleep: all has ended\n".to_string();
    }
    let width = rows.iter().map(|(name, _)| name.chars().count()).max();
    let width = width.unwrap_or(0);
    let row = |(name, stands): &(String, String)| format!("  {name:width$}  {stands}\n");
    rows.iter().map(row).collect()
}
