//! What is written beside an arrow, and what it tells when pointed at.

use super::svg::{Canvas, Rect, Style, EVENT, HOOK, SMALL, UNDO};
use super::width::shorten;
use crate::day;
use crate::draft::{Draft, Name, Table};
use crate::records::{Grant, Step, Window};

/// The most characters of a name and of words that a picture writes out; the
/// rest is told when pointed at.
pub const MOST_NAME: usize = 48;
pub const MOST_WORDS: usize = 72;

/// A line of a label, with the sign of a retraction or without.
#[derive(Clone, Debug, PartialEq, Eq)]
pub struct Line {
    pub style: Style,
    pub hook: bool,
    pub text: String,
}

impl Line {
    #[must_use]
    pub fn new(style: Style, text: &str) -> Line {
        let text = shorten(text, MOST_NAME);
        let hook = false;
        Line { style, hook, text }
    }

    /// A retraction by its name.
    #[must_use]
    pub fn undo(text: &str) -> Line {
        let line = Line::new(UNDO, text);
        Line { hook: true, ..line }
    }

    #[must_use]
    pub fn width(&self) -> i32 {
        let sign = if self.hook { HOOK } else { 0 };
        sign + self.style.width(&self.text)
    }

    pub fn draw(&self, canvas: &mut Canvas, (x, top): (i32, i32), within: Rect) {
        let mut left = x;
        if self.hook {
            canvas.hook((x, top));
            left += HOOK;
        }
        canvas.text(self.style, (left, top), &self.text, within);
    }
}

/// The lines above an arrow and those below it.
#[derive(Clone, Debug, Default, PartialEq, Eq)]
pub struct Label {
    pub above: Vec<Line>,
    pub below: Vec<Line>,
}

impl Label {
    /// A step's event, its retraction and its term.
    #[must_use]
    pub fn of_step(draft: &Draft, step: &Step, window: Option<Window>) -> Label {
        let mut below = Vec::new();
        if step.code != 0 {
            below.push(Line::undo(&draft.names.retractions.name(step.code)));
        }
        if let Some(window) = window {
            below.push(Line::new(SMALL, &term(window)));
        }
        let event = draft.names.events.name(step.event);
        let above = vec![Line::new(EVENT, &event)];
        Label { above, below }
    }

    /// Where the track goes on once the retraction is fired.
    #[must_use]
    pub fn of_deviation(draft: &Draft, step: &Step, deviation: u16) -> Label {
        let code = draft.names.retractions.name(step.code);
        let then = format!("then {}", draft.state(deviation));
        Label {
            above: vec![Line::undo(&code)],
            below: vec![Line::new(UNDO, &then)],
        }
    }

    #[must_use]
    pub fn width(&self) -> i32 {
        let lines = self.above.iter().chain(&self.below);
        lines.map(Line::width).max().unwrap_or(0)
    }

    /// The heights above and below the arrow.
    #[must_use]
    pub fn heights(&self) -> (i32, i32) {
        let height = |lines: &[Line]| lines.iter().map(|line| line.style.line()).sum::<i32>();
        (height(&self.above) + 2, height(&self.below) + 3)
    }

    /// Draws it about an arrow at this height, from here to the right.
    pub fn draw(&self, canvas: &mut Canvas, (x, arrow): (i32, i32), within: Rect) {
        let mut top = arrow - self.heights().0;
        for line in &self.above {
            line.draw(canvas, (x, top), within);
            top += line.style.line();
        }
        top = arrow + 3;
        for line in &self.below {
            line.draw(canvas, (x, top), within);
            top += line.style.line();
        }
    }
}

fn term(window: Window) -> String {
    day::span(window.first, window.last)
}

/// A name with its words.
#[must_use]
pub fn full(name: &Name) -> String {
    let Name { name, words } = name;
    if words.is_empty() {
        name.clone()
    } else {
        format!("{name} ({words})")
    }
}

/// A number's name with its words.
#[must_use]
pub fn full_in(table: &Table, number: u16) -> String {
    match table.names.get(&number) {
        Some(name) => full(name),
        None => number.to_string(),
    }
}

/// A step in a sentence.
#[must_use]
pub fn step_said(draft: &Draft, step: &Step, window: Option<Window>) -> String {
    let names = &draft.names;
    let mut said = format!(
        "On {} from {} to {}",
        full_in(&names.events, step.event),
        draft.state(step.source),
        draft.state(step.destination)
    );
    if let Some(window) = window {
        said += &format!(", from {}", term(window));
    }
    if step.code != 0 {
        let undo = full_in(&names.retractions, step.code);
        said += &format!("; taken back by {undo}");
    }
    if let Some(state) = step.deviation {
        said += &format!(", then on in {}", draft.state(state));
    }
    said
}

/// A society and what it may do.
#[must_use]
pub fn grant_said(draft: &Draft, grant: &Grant) -> String {
    let rights = grant.rights();
    let society = draft.names.societies.name(grant.society);
    let society = shorten(&society, MOST_NAME);
    if rights.is_empty() {
        return format!("{society}: no right");
    }
    format!("{society}: {}", rights.join(", "))
}
