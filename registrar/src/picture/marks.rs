//! The signs of what a call did: a retraction fired, a scope complete or given
//! up, the ledger over.

use super::bars::{Row, HELD_BAR, STATE_BAR};
use super::label::full_in;
use super::svg::{Canvas, Rect, HEADING};
use crate::draft::Draft;
use crate::run::{Answer, Done};
use crate::standing::{Mode, Standing};
use retraction::Moved;

/// What is written where the ledger is over.
pub const OVER: &str = "over";

/// What a call took back, and which tracks it put to sleep.
pub fn draw(canvas: &mut Canvas, draft: &Draft, rows: &[Row], done: &Done, x: i32) {
    for row in rows {
        let (before, after) = (&done.before[row.track], &done.after[row.track]);
        if let Answer::Fired { track, entry } = done.answer {
            let place = before.as_ref().map_or(0, |s| s.entries.len());
            if usize::from(track) == row.track && place > 0 {
                let undo = full_in(&draft.names.retractions, entry.code);
                canvas.open("mark", &format!("taken back: {undo}"));
                draw_fired(canvas, (x, row.held(place - 1)));
                canvas.close();
            }
        }
        if let (Some(before), None, false) = (before, after, done.over) {
            draw_sleep(canvas, done, before, (x, row.strip()));
        }
    }
}

/// The end of a ledger, at the left edge of its column.
pub fn draw_over(canvas: &mut Canvas, column: Rect) {
    let (x, top, bottom) = (column.x + 2, column.y, column.bottom());
    canvas.open("end", "The ledger is over");
    canvas.path("over", &format!("M{x} {top}V{bottom}m4 0V{top}"));
    canvas.text(HEADING, (x + 9, top + 8), OVER, column);
    canvas.close();
}

/// The sign of a retraction that was fired, at the left edge of its column.
pub fn draw_fired(canvas: &mut Canvas, (x, y): (i32, i32)) {
    let middle = (x + 12, y + (HELD_BAR - 2) / 2);
    canvas.dot("fired", middle, 8);
    canvas.hook((x + 5, middle.1 - 7));
}

/// A track that falls asleep: its scope is complete, or given up.
fn draw_sleep(canvas: &mut Canvas, done: &Done, before: &Standing, (x, y): (i32, i32)) {
    let closes = matches!(done.answer, Answer::Moved(Moved { closed, .. }) if closed > 0);
    if closes && before.mode == Mode::Forward {
        canvas.open("mark", "its scope is complete");
        draw_complete(canvas, (x, y));
    } else {
        canvas.open("mark", "its scope is given up");
        draw_given_up(canvas, (x, y));
    }
    canvas.close();
}

/// The sign of a completed scope: a block at the end of the bar.
pub fn draw_complete(canvas: &mut Canvas, (x, y): (i32, i32)) {
    canvas.rect("complete", Rect::new(x - 2, y - 1, 5, STATE_BAR - 1), 0);
}

/// The sign of a scope that is given up: a cross after the end of the bar.
pub fn draw_given_up(canvas: &mut Canvas, (x, y): (i32, i32)) {
    let (left, top) = (x + 4, y + 6);
    canvas.path("given-up", &format!("M{left} {top}l9 9m0-9l-9 9"));
}
