//! A plan as it was understood: the tracks in the states that host them, and
//! beside each step what takes it back.

use crate::day;
use crate::draft::{Draft, Name};
use crate::phrase;
use crate::records::{Grant, Step};
use retraction::{Limit, Plan};

/// A row of the list: what it is, the days of a step, and what is beside it.
struct Row {
    what: String,
    days: String,
    beside: Option<Beside>,
}

/// A retraction in the right column.
struct Beside {
    label: &'static str,
    code: u16,
    words: String,
}

const TAKES_BACK: &str = "takes back:";
const COMPLETE: &str = "when complete:";

/// What was understood of an accepted plan.
#[must_use]
pub fn list(draft: &Draft, plan: &Plan) -> String {
    let figures = plan.largest_of_all().ok();
    let mut lines = head(draft, plan);
    if figures.is_none() {
        lines.push(format!(
            "No track has a figure of what it holds at most, for there is {}.",
            unbounded(draft)
        ));
    }
    lines.push(String::new());
    lines.extend(rights(draft));
    let figures = figures.map(|all| all.iter().map(|one| one.figure).collect());
    let mut rows = Rows {
        draft,
        figures,
        rows: Vec::new(),
    };
    for root in draft.records.roots() {
        rows.track(root, 0);
    }
    lines.extend(aligned(&rows.rows));
    lines.join("\n") + "\n"
}

/// How many records of each sort a plan has, its bytes, and its sum as a ledger has
/// it.
#[must_use]
pub fn figures(draft: &Draft, plan: &Plan) -> String {
    let records = &draft.records;
    let counts = [
        (records.tracks.len(), "track"),
        (records.states.len(), "state"),
        (records.steps.len(), "step"),
        (records.windows.len(), "window"),
        (records.grants.len(), "rights record"),
    ];
    let counts = counts.map(|(number, one)| phrase::count(number, one));
    let begun = plan.begin(Limit::default());
    let (bytes, sum) = (begun.words()[0], begun.words()[1]);
    format!("{} ({bytes} bytes, sum {sum})", counts.join(", "))
}

/// Name and figures.
fn head(draft: &Draft, plan: &Plan) -> Vec<String> {
    let title = titled(&draft.names.plan);
    let mut lines = Vec::new();
    if !title.is_empty() {
        lines.push(title);
    }
    lines.push(figures(draft, plan));
    lines.push("Each track starts in the first of its states.".to_string());
    lines
}

/// A name with its words.
fn titled(name: &Name) -> String {
    if name.words.is_empty() {
        return name.name.clone();
    }
    format!("{}: {}", name.name, name.words)
}

/// Why there are no figures.
fn unbounded(draft: &Draft) -> &'static str {
    if draft.records.steps.iter().any(|x| x.deviation.is_some()) {
        "a deviation"
    } else {
        "a circle of steps"
    }
}

/// Who may do what, root by root.
fn rights(draft: &Draft) -> Vec<String> {
    let grants = &draft.records.grants;
    if grants.is_empty() {
        let none = "Nobody has a right: no event, no withdrawal and no firing is accepted.";
        return vec![none.to_string(), String::new()];
    }
    let who: Vec<String> = grants.iter().map(|g| holder(draft, g.society)).collect();
    let width = widest(who.iter().map(String::as_str));
    let mut lines = Vec::new();
    for root in draft.records.roots() {
        let over = |pair: &(&Grant, &String)| usize::from(pair.0.root) == root;
        let of_root: Vec<_> = grants.iter().zip(&who).filter(over).collect();
        let none = if of_root.is_empty() { " nobody" } else { "" };
        lines.push(format!("rights over {}:{none}", draft.track(root as u16)));
        for (grant, who) in of_root {
            lines.push(format!("  {who:width$}  {}", may(grant)));
        }
    }
    lines.push(String::new());
    lines
}

/// A society by number, name and words.
fn holder(draft: &Draft, society: u16) -> String {
    match draft.names.societies.names.get(&society) {
        Some(name) => format!("{society} {}", titled(name)),
        None => format!("society {society}"),
    }
}

/// `may move, signal and fire`.
fn may(grant: &Grant) -> String {
    let rights: Vec<String> = grant.rights().into_iter().map(String::from).collect();
    format!("may {}", phrase::row(&rights))
}

/// Rows in the making.
struct Rows<'a> {
    draft: &'a Draft,
    /// The most that each track holds, if there are figures.
    figures: Option<Vec<u16>>,
    rows: Vec<Row>,
}

impl Rows<'_> {
    fn push(&mut self, depth: usize, what: &str, days: String, beside: Option<Beside>) {
        self.rows.push(Row {
            what: format!("{:1$}{what}", "", 2 * depth),
            days,
            beside,
        });
    }

    /// A track with its states and all that they host.
    fn track(&mut self, track: usize, depth: usize) {
        let mut marks = Vec::new();
        if self.draft.records.tracks[track].host.is_none() {
            marks.push("root".to_string());
        }
        if let Some(figures) = &self.figures {
            marks.push(most(figures[track]));
        }
        let mut what = format!("track {track} {}", titled(&self.draft.names.tracks[track]));
        if !marks.is_empty() {
            what += &format!(" ({})", marks.join(", "));
        }
        self.push(depth, &what, String::new(), None);
        let states: Vec<usize> = self.draft.records.states_of(track).collect();
        for state in states {
            self.state(state, depth + 1);
        }
    }

    fn state(&mut self, state: usize, depth: usize) {
        let record = self.draft.records.states[state];
        let last = if record.last == 1 { " (final)" } else { "" };
        let what = format!("{state} {}{last}", titled(&self.draft.names.states[state]));
        let complete = Some(record.replacement).filter(|&code| code != 0);
        let beside = complete.map(|code| self.beside(COMPLETE, code));
        self.push(depth, &what, String::new(), beside);
        let steps: Vec<usize> = self.draft.records.steps_from(state).collect();
        for step in steps {
            self.step(step, depth + 2);
        }
        let hosted: Vec<usize> = self.draft.records.hosted_by(state).collect();
        for track in hosted {
            self.track(track, depth + 1);
        }
    }

    fn step(&mut self, step: usize, depth: usize) {
        let draft = self.draft;
        let record: Step = draft.records.steps[step];
        let event = match draft.names.events.names.get(&record.event) {
            Some(name) => format!("{} {}", record.event, name.name),
            None => record.event.to_string(),
        };
        let what = format!("{event} -> {}", draft.state(record.destination));
        let window = draft.records.window_of(step);
        let days = window.map(|w| day::span(w.first, w.last));
        let mut beside = self.beside(TAKES_BACK, record.code);
        if let Some(state) = record.deviation {
            beside.words += &format!(", then on in {}", draft.state(state));
        }
        self.push(depth, &what, days.unwrap_or_default(), Some(beside));
    }

    fn beside(&self, label: &'static str, code: u16) -> Beside {
        let name = self.draft.names.retractions.names.get(&code);
        let words = name.map_or("", |name| name.said());
        Beside {
            label,
            code,
            words: words.to_string(),
        }
    }
}

/// The most that a track holds, and that the reading rooms hold less, where only
/// they do.
fn most(figure: u16) -> String {
    let [rooms, main] = [Limit::ReadingRoom, Limit::Main].map(Limit::entries);
    let above = match figure > rooms && figure <= main {
        true => format!(", above the reading rooms' limit of {rooms}"),
        false => String::new(),
    };
    format!("holds at most {figure}{above}")
}

/// The rows as lines, with what is beside them in straight columns.
fn aligned(rows: &[Row]) -> Vec<String> {
    let with_beside = || rows.iter().filter(|row| row.beside.is_some());
    let what = widest(with_beside().map(|row| row.what.as_str()));
    let days = widest(with_beside().map(|row| row.days.as_str()));
    let codes = rows.iter().filter_map(|row| row.beside.as_ref());
    let codes: Vec<String> = codes.map(|beside| code(beside.code)).collect();
    let code_width = widest(codes.iter().map(String::as_str));
    let label = COMPLETE.len();
    let line = |row: &Row| match &row.beside {
        None => row.what.clone(),
        Some(beside) => {
            let mut line = format!("{:what$}  ", row.what);
            if days > 0 {
                line += &format!("{:days$}  ", row.days);
            }
            line += &format!("{:label$} {:>code_width$}", beside.label, code(beside.code));
            format!("{line} {}", beside.words).trim_end().to_string()
        }
    };
    rows.iter().map(line).collect()
}

/// A retraction's code, or a dash for none.
fn code(code: u16) -> String {
    match code {
        0 => "-".to_string(),
        code => code.to_string(),
    }
}

/// The most characters that any of these has.
fn widest<'a>(cells: impl Iterator<Item = &'a str>) -> usize {
    cells.map(|cell| cell.chars().count()).max().unwrap_or(0)
}
