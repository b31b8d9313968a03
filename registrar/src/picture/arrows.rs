//! The arrows of a track: its steps, and where their deviations lead.

use super::label::{step_said, Label};
use super::layout::StateBox;
use super::svg::Rect;
use crate::draft::Draft;

/// Room beside a label on either side; an arrow's head is in it.
pub const BESIDE: i32 = 14;
/// How far a loop reaches out.
pub const LOOP: i32 = 16;
/// How far its two ends are from its middle.
pub const ARM: i32 = 5;

/// A step or a deviation.
#[derive(Clone, Debug)]
pub struct Arrow {
    /// The states that it goes from and to, by their places in the track.
    pub from: usize,
    pub to: usize,
    pub dashed: bool,
    /// Straight from one state to its neighbour.
    pub plain: bool,
    pub said: String,
    pub label: Label,
    /// The height of its line, and the left edge of its label.
    pub at: (i32, i32),
    /// The room that its label must not leave.
    pub room: Rect,
}

/// The arrows of a track's steps and of their deviations.
#[must_use]
pub fn arrows(draft: &Draft, states: &[StateBox]) -> Vec<Arrow> {
    let place = |state: u16| states.iter().position(|s| s.state == usize::from(state));
    let mut arrows: Vec<Arrow> = Vec::new();
    for (number, step) in draft.records.steps.iter().enumerate() {
        let ends = place(step.source).and_then(|from| Some((from, place(step.destination)?)));
        let (from, to) = match ends {
            Some(ends) => ends,
            None => continue,
        };
        let window = draft.records.window_of(number);
        let said = step_said(draft, step, window);
        let taken = arrows.iter().any(|a| a.plain && a.from == from);
        let arrow = |from, to, plain, dashed, label| Arrow {
            from,
            to,
            dashed,
            plain,
            said: said.clone(),
            label,
            at: (0, 0),
            room: Rect::default(),
        };
        let label = Label::of_step(draft, step, window);
        arrows.push(arrow(from, to, to == from + 1 && !taken, false, label));
        if let Some((state, back)) = step.deviation.and_then(|s| Some((s, place(s)?))) {
            let label = Label::of_deviation(draft, step, state);
            arrows.push(arrow(to, back, false, true, label));
        }
    }
    arrows
}

impl Arrow {
    /// The upright lines between which its label stands: the first, and whether
    /// the label is at the left one.
    pub fn gap(&self) -> (usize, bool) {
        if self.to < self.from {
            (self.from - 1, false)
        } else {
            (self.from, true)
        }
    }

    /// The room that its label needs between two upright lines, or two states.
    pub fn need(&self) -> i32 {
        let out = if self.from == self.to { LOOP - 6 } else { 0 };
        out + self.label.width() + 2 * BESIDE
    }

    /// What it takes of a row, where upright lines and the gaps after them are
    /// counted by turns.
    pub fn span(&self) -> (usize, usize) {
        let (low, high) = (2 * self.from.min(self.to), 2 * self.from.max(self.to));
        (low, high.max(low + 1))
    }

    /// The uppermost point of its line.
    pub fn top(&self) -> i32 {
        self.at.0 - if self.from == self.to { ARM } else { 0 }
    }
}
