//! A draft as text, in columns for the eye.

use crate::day;
use crate::draft::{Draft, Name, Table};
use crate::records::Step;
use crate::words::quote;
use std::collections::BTreeMap;

/// The text of a draft. Read again it gives the same names and records, if the
/// plan is accepted; of others, records that no text has are left out.
#[must_use]
pub fn write(draft: &Draft) -> String {
    let writer = Writer::of(draft);
    let mut blocks = Vec::new();
    let plan = &draft.names.plan;
    if !plan.name.is_empty() {
        blocks.push(format!("plan {}\n", named(plan)));
    }
    blocks.extend(writer.tables());
    blocks.extend((0..draft.records.tracks.len()).map(|track| writer.track(track)));
    blocks.join("\n")
}

/// Which sorts have their numbers written, and how wide columns are.
struct Writer<'a> {
    draft: &'a Draft,
    /// How often each name of a state occurs.
    called: BTreeMap<&'a str, usize>,
    states: bool,
    steps: bool,
    windows: bool,
    grants: bool,
    /// Columns of states: their names and words, and of steps: event, destination,
    /// retraction with deviation, number.
    state: usize,
    columns: [usize; 4],
}

impl<'a> Writer<'a> {
    fn of(draft: &'a Draft) -> Writer<'a> {
        let mut called = BTreeMap::new();
        for name in &draft.names.states {
            *called.entry(name.name.as_str()).or_default() += 1;
        }
        let records = &draft.records;
        let tracks = || 0..records.tracks.len();
        let states: Vec<usize> = tracks().flat_map(|t| records.states_of(t)).collect();
        let steps: Vec<usize> = states.iter().flat_map(|&s| records.steps_from(s)).collect();
        let windows: Vec<usize> = steps.iter().filter_map(|&x| window(draft, x)).collect();
        let grants: Vec<usize> = tracks().flat_map(|t| grants_of(draft, t)).collect();
        let mut writer = Writer {
            draft,
            called,
            states: is_jumbled(&states),
            steps: is_jumbled(&steps),
            windows: is_jumbled(&windows),
            grants: is_jumbled(&grants),
            state: 0,
            columns: [0; 4],
        };
        writer.measure(&states, &steps);
        writer
    }

    /// A column is as wide as its widest word that another one follows.
    fn measure(&mut self, states: &[usize], steps: &[usize]) {
        for &state in states {
            if !self.state_ends(state).is_empty() {
                self.state = self.state.max(width(&self.state_starts(state)));
            }
        }
        for &step in steps {
            let cells = self.cells(step);
            let followed = |at: usize| cells[at + 1..].iter().any(|cell| !cell.is_empty());
            for (at, column) in self.columns.iter_mut().enumerate() {
                if followed(at) {
                    *column = (*column).max(width(&cells[at]));
                }
            }
        }
        if self.state > 0 {
            // What ends a state stands below where its steps go.
            self.state = self.state.max(self.columns[0] + 2);
        }
    }

    fn tables(&self) -> Vec<String> {
        let names = &self.draft.names;
        let tables = [
            ("society", &names.societies),
            ("event", &names.events),
            ("retract", &names.retractions),
        ];
        let rows = || tables.iter().flat_map(|(_, table)| &table.names);
        let digits = rows().map(|(number, _)| width(&number.to_string())).max();
        let name = rows().filter(|(_, name)| !name.words.is_empty());
        let name = name.map(|(_, name)| width(&name.name)).max();
        let columns = (digits.unwrap_or(0), name.unwrap_or(0));
        let some = tables.iter().filter(|(_, table)| !table.names.is_empty());
        some.map(|(word, table)| rows_of(word, table, columns))
            .collect()
    }

    fn track(&self, track: usize) -> String {
        let mut line = format!("track {}", named(&self.draft.names.tracks[track]));
        if let Some(host) = self.draft.records.tracks[track].host {
            line += &format!(" in {}", self.host(host));
        }
        let mut lines = vec![line];
        lines.extend(grants_of(self.draft, track).map(|grant| self.grant(grant)));
        for state in self.draft.records.states_of(track) {
            let cells = [self.state_starts(state), self.state_ends(state)];
            lines.push(format!("  {}", row(&cells, &[self.state])));
            for step in self.draft.records.steps_from(state) {
                lines.push(format!("    {}", row(&self.cells(step), &self.columns)));
            }
        }
        lines.iter().map(|line| format!("{line}\n")).collect()
    }

    fn grant(&self, at: usize) -> String {
        let grant = self.draft.records.grants[at];
        let society = self.draft.names.societies.name(grant.society);
        let number = numbered(self.grants, at);
        let rights = grant.rights().into_iter();
        let rights: String = rights.map(|right| format!(" {right}")).collect();
        format!("  right {number}{society}{rights}")
    }

    fn state_starts(&self, state: usize) -> String {
        let number = numbered(self.states, state);
        format!("state {number}{}", named(&self.draft.names.states[state]))
    }

    fn state_ends(&self, state: usize) -> String {
        let record = self.draft.records.states[state];
        let mut ends = Vec::new();
        if record.last != 0 {
            ends.push("final".to_string());
        }
        if record.replacement != 0 {
            let retraction = self.draft.names.retractions.name(record.replacement);
            ends.push(format!("when complete undo {retraction}"));
        }
        ends.join(" ")
    }

    /// The parts of a step's line.
    fn cells(&self, at: usize) -> [String; 5] {
        let step = self.draft.records.steps[at];
        let names = &self.draft.names;
        let number = match self.steps {
            true => format!("step {at}"),
            false => String::new(),
        };
        [
            format!("on {}", names.events.name(step.event)),
            format!("go {}", self.state(step.destination, &step)),
            self.undo(&step),
            number,
            self.term(at),
        ]
    }

    fn undo(&self, step: &Step) -> String {
        let retraction = self.draft.names.retractions.name(step.code);
        match step.deviation {
            Some(state) => format!("undo {retraction} then {}", self.state(state, step)),
            None if step.code == 0 => String::new(),
            None => format!("undo {retraction}"),
        }
    }

    fn term(&self, step: usize) -> String {
        let at = match window(self.draft, step) {
            Some(at) => at,
            None => return String::new(),
        };
        let window = self.draft.records.windows[at];
        let (first, last) = (day::text(window.first), day::text(window.last));
        match self.windows {
            true => format!("from {first} to {last} window {at}"),
            false => format!("from {first} to {last}"),
        }
    }

    /// A state as a step means it.
    fn state(&self, state: u16, step: &Step) -> String {
        let states = &self.draft.records.states;
        let track = |state: u16| states.get(usize::from(state)).map(|state| state.track);
        if track(state) == track(step.source) {
            return self.draft.state(state);
        }
        self.full(state)
    }

    /// A state as a track that it hosts means it.
    fn host(&self, state: u16) -> String {
        let name = self.draft.state(state);
        match self.called.get(name.as_str()) {
            Some(1) => name,
            _ => self.full(state),
        }
    }

    /// TRACK.STATE, or its number where there is no such state.
    fn full(&self, state: u16) -> String {
        let known = self.draft.records.states.get(usize::from(state));
        match known {
            Some(known) => {
                let (track, state) = (self.draft.track(known.track), self.draft.state(state));
                format!("{track}.{state}")
            }
            None => state.to_string(),
        }
    }
}

/// The window of a step, counted in file order.
fn window(draft: &Draft, step: usize) -> Option<usize> {
    let mut windows = draft.records.windows.iter();
    windows.position(|window| usize::from(window.step) == step)
}

fn grants_of(draft: &Draft, track: usize) -> impl Iterator<Item = usize> + '_ {
    let grants = draft.records.grants.iter().enumerate();
    let own = grants.filter(move |(_, grant)| usize::from(grant.root) == track);
    own.map(|(at, _)| at)
}

/// Whether the order of a text does not give the numbers.
fn is_jumbled(order: &[usize]) -> bool {
    !order.iter().copied().eq(0..order.len())
}

fn numbered(written: bool, number: usize) -> String {
    match written {
        true => format!("{number} "),
        false => String::new(),
    }
}

fn named(name: &Name) -> String {
    match name.words.as_str() {
        "" => name.name.clone(),
        words => format!("{} {}", name.name, quote(words)),
    }
}

fn rows_of(word: &str, table: &Table, (digits, names): (usize, usize)) -> String {
    let row = |(number, name): (&u16, &Name)| {
        let words = match name.words.as_str() {
            "" => String::new(),
            words => quote(words),
        };
        let cells = [format!("{word:7} {number:digits$} {}", name.name), words];
        format!("{}\n", row(&cells, &[7 + 1 + digits + 1 + names]))
    };
    table.names.iter().map(row).collect()
}

/// Cells in their columns, with nothing behind the last that is not empty.
fn row(cells: &[String], columns: &[usize]) -> String {
    let mut line = String::new();
    for (at, cell) in cells.iter().enumerate() {
        let column = columns.get(at).copied().unwrap_or(0);
        line += cell;
        line += &" ".repeat(column.saturating_sub(width(cell)));
        line += if column == 0 { "" } else { "  " };
    }
    line.truncate(line.trim_end().len());
    line
}

fn width(text: &str) -> usize {
    text.chars().count()
}
