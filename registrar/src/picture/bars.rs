//! What lasts over several calls of a run, as bars over their columns: a day, a
//! society, a track's state, a retraction that is held.

use super::label::{full, full_in, Line};
use super::svg::{Rect, EVENT, SMALL};
use crate::day;
use crate::draft::Draft;
use crate::journal::Call;
use crate::run::Run;
use crate::standing::{Mode, Standing};
use std::ops::Range;

/// The heights of a bar of the head, of a state and of a retraction, each with
/// the room below it.
pub const HEAD_BAR: i32 = 18;
pub const STATE_BAR: i32 = 24;
pub const HELD_BAR: i32 = 19;
/// Room above and below a track's bars.
const AROUND: i32 = 5;
/// Room beside a bar's text.
pub const BESIDE: i32 = 6;

/// A bar from one column to another, both included.
#[derive(Clone, Debug)]
pub struct Bar {
    pub class: &'static str,
    pub from: usize,
    pub to: usize,
    pub y: i32,
    pub h: i32,
    pub line: Line,
    pub said: String,
}

/// A track's row.
#[derive(Clone, Copy, Debug)]
pub struct Row {
    pub track: usize,
    pub depth: i32,
    pub y: i32,
    pub h: i32,
}

impl Row {
    /// The top of a retraction's bar, by its place among those held, the oldest
    /// at the bottom.
    #[must_use]
    pub fn held(self, place: usize) -> i32 {
        self.y + self.h - AROUND - HELD_BAR * (place as i32 + 1)
    }

    /// The top of its state's bar.
    #[must_use]
    pub fn strip(self) -> i32 {
        self.y + AROUND
    }
}

/// How the tracks stand in each column: after the begin, and after each call.
#[must_use]
pub fn columns<'a>(run: &'a Run) -> Vec<&'a [Option<Standing>]> {
    let mut columns = vec![&run.begun[..]];
    columns.extend(run.done.iter().map(|done| &done.after[..]));
    columns
}

/// A row for each track, hosted ones under the tracks that host them.
#[must_use]
pub fn rows(draft: &Draft, columns: &[&[Option<Standing>]], top: i32) -> Vec<Row> {
    let mut rows: Vec<Row> = Vec::new();
    let mut left: Vec<(usize, i32)> = draft.records.roots().map(|root| (root, 0)).collect();
    left.reverse();
    let mut y = top;
    while let Some((track, depth)) = left.pop() {
        let h = 2 * AROUND + STATE_BAR + HELD_BAR * most_held(columns, track) as i32;
        rows.push(Row { track, depth, y, h });
        y += h;
        let states = draft.records.states_of(track);
        let hosted = states.flat_map(|state| draft.records.hosted_by(state));
        let mut hosted: Vec<(usize, i32)> = hosted.map(|inner| (inner, depth + 1)).collect();
        hosted.reverse();
        left.append(&mut hosted);
    }
    rows
}

fn most_held(columns: &[&[Option<Standing>]], track: usize) -> usize {
    let held = columns.iter().filter_map(|column| column[track].as_ref());
    held.map(|standing| standing.entries.len())
        .max()
        .unwrap_or(0)
}

/// The stretches of columns that have the same value.
fn stretches<T: PartialEq + Copy>(values: &[Option<T>]) -> Vec<(usize, usize, T)> {
    let mut found: Vec<(usize, usize, T)> = Vec::new();
    for (column, value) in values.iter().enumerate() {
        match (value, found.last_mut()) {
            (Some(value), Some((_, to, last))) if *to + 1 == column && value == last => {
                *to = column
            }
            (&Some(value), _) => found.push((column, column, value)),
            (None, _) => {}
        }
    }
    found
}

/// The bars of a track: its states, and what it holds.
#[must_use]
pub fn of_track(draft: &Draft, columns: &[&[Option<Standing>]], row: Row) -> Vec<Bar> {
    let standing = |column: &&[Option<Standing>]| column[row.track].clone();
    let standings: Vec<Option<Standing>> = columns.iter().map(standing).collect();
    let modes = standings.iter();
    let modes = modes.map(|s| s.as_ref().map(|s| (s.mode, s.state)));
    let mut bars: Vec<Bar> = Vec::new();
    for (from, to, (mode, state)) in stretches(&modes.collect::<Vec<_>>()) {
        let class = match mode {
            Mode::Forward => "forward",
            Mode::Undoing => "undoing",
        };
        let name = draft.names.states.get(usize::from(state)).map(full);
        bars.push(Bar {
            class,
            from,
            to,
            y: row.strip(),
            h: STATE_BAR - 3,
            line: Line::new(EVENT, &draft.state(state)),
            said: format!(
                "{} {class} in {}",
                draft.track(row.track as u16),
                name.unwrap_or_default()
            ),
        });
    }
    for place in 0..most_held(columns, row.track) {
        let held = standings.iter();
        let held = held.map(|s| s.as_ref().and_then(|s| s.entries.get(place).copied()));
        for (from, to, entry) in stretches(&held.collect::<Vec<_>>()) {
            let mut name = draft.names.retractions.name(entry.code);
            if let Some(state) = entry.deviation {
                name += &format!(" then {}", draft.state(state));
            }
            bars.push(Bar {
                class: "held",
                from,
                to,
                y: row.held(place),
                h: HELD_BAR - 2,
                line: Line::undo(&name),
                said: format!("held: {}", full_in(&draft.names.retractions, entry.code)),
            });
        }
    }
    bars
}

/// The day and the society of each column, from the call on that brings it.
#[derive(Clone, Debug)]
pub struct Spans {
    days: Vec<Option<i32>>,
    societies: Vec<Option<u16>>,
}

impl Spans {
    /// Those of a run, for so many columns.
    #[must_use]
    pub fn of(run: &Run, columns: usize) -> Spans {
        let mut days = vec![None];
        let mut societies = vec![None];
        for done in &run.done {
            let before = days.last().copied().flatten();
            days.push(match done.call {
                Call::Event { day, .. } => Some(day),
                _ => before,
            });
            societies.push(Some(done.call.society()));
        }
        days.resize(columns, None);
        societies.resize(columns, None);
        Spans { days, societies }
    }

    /// Their bars over some columns.
    #[must_use]
    pub fn bars(&self, draft: &Draft, band: Range<usize>, top: i32) -> Vec<Bar> {
        let bar = |(from, to), y, text: &str, said| Bar {
            class: "span",
            from,
            to,
            y,
            h: HEAD_BAR - 3,
            line: Line::new(SMALL, text),
            said,
        };
        let mut bars = Vec::new();
        for (from, to, day) in stretches(&self.days[band.clone()]) {
            let day = day::text(day);
            bars.push(bar((from, to), top, &day, format!("on {day}")));
        }
        for (from, to, society) in stretches(&self.societies[band]) {
            let table = &draft.names.societies;
            let said = format!("as {}", full_in(table, society));
            let text = format!("as {}", table.name(society));
            bars.push(bar((from, to), top + HEAD_BAR, &text, said));
        }
        bars
    }
}

/// Widens columns until each bar has room for its text.
pub fn widen(widths: &mut [i32], bars: &[Bar]) {
    let mut order: Vec<&Bar> = bars.iter().collect();
    order.sort_by_key(|bar| (bar.to - bar.from, bar.from));
    for bar in order {
        let has: i32 = widths[bar.from..=bar.to].iter().sum();
        let lacks = bar.line.width() + 2 * BESIDE + 2 - has;
        widths[bar.from] += lacks.max(0);
    }
}

impl Bar {
    /// Its box, where the columns' left edges and the right edge of the last are
    /// these.
    #[must_use]
    pub fn rect(&self, edges: &[i32]) -> Rect {
        let (left, right) = (edges[self.from] + 1, edges[self.to + 1] - 1);
        Rect::new(left, self.y, right - left, self.h)
    }
}
