//! What the signs of the pictures mean.

use super::marks::{draw_complete, draw_fired, draw_given_up};
use super::plan::{draw_start, draw_tip};
use super::svg::{Canvas, Rect, SMALL};

/// The size of a sign, and the room between two.
const SIGN: i32 = 34;
const HIGH: i32 = 17;
const BETWEEN: i32 = 18;

/// A sign, and what it means.
pub type Entry = (fn(&mut Canvas, (i32, i32)), &'static str);

/// The signs of a run.
pub const RUN: [Entry; 8] = [
    (forward, "forward, in this state"),
    (undoing, "undoing"),
    (held, "a retraction that is held, the newest on top"),
    (fired, "taken back by this call"),
    (complete, "its scope is complete"),
    (given_up, "its scope is given up"),
    (refused, "the call was refused"),
    (over, "the ledger is over"),
];

/// The signs of a plan; the last is that of a deviation.
pub const PLAN: [Entry; 4] = [
    (start, "where the track starts"),
    (last, "a final state"),
    (undo, "the retraction that takes the step back"),
    (deviation, "where the track goes on once it is taken back"),
];

/// Draws it from here on, in lines no longer than to the right edge; returns
/// the lower right corner.
pub fn draw(
    canvas: &mut Canvas,
    entries: &[Entry],
    (left, top): (i32, i32),
    right: i32,
) -> (i32, i32) {
    let (mut x, mut y, mut most) = (left, top, left);
    canvas.open("legend", "What the signs mean");
    for (sign, meaning) in entries {
        let width = SIGN + 6 + SMALL.width(meaning);
        if x > left && x + width > right {
            x = left;
            y += HIGH + 7;
        }
        sign(canvas, (x, y));
        let within = Rect::new(x, y, width, HIGH);
        canvas.text(SMALL, (x + SIGN + 6, y + 2), meaning, within);
        x += width;
        most = most.max(x);
        x += BETWEEN;
    }
    canvas.close();
    (most, y + HIGH)
}

fn block(canvas: &mut Canvas, class: &str, (x, y): (i32, i32), w: i32) {
    canvas.rect(class, Rect::new(x, y, w, HIGH), 3);
}

fn forward(canvas: &mut Canvas, at: (i32, i32)) {
    block(canvas, "forward", at, SIGN);
}

fn undoing(canvas: &mut Canvas, at: (i32, i32)) {
    block(canvas, "undoing", at, SIGN);
}

fn held(canvas: &mut Canvas, (x, y): (i32, i32)) {
    block(canvas, "held", (x, y), SIGN);
    canvas.hook((x + 6, y + 1));
}

fn fired(canvas: &mut Canvas, (x, y): (i32, i32)) {
    draw_fired(canvas, (x + SIGN - 24, y));
}

fn complete(canvas: &mut Canvas, (x, y): (i32, i32)) {
    block(canvas, "forward", (x, y), SIGN - 3);
    draw_complete(canvas, (x + SIGN - 3, y - 2));
}

fn given_up(canvas: &mut Canvas, (x, y): (i32, i32)) {
    block(canvas, "undoing", (x, y), 18);
    draw_given_up(canvas, (x + 18, y - 2));
}

fn refused(canvas: &mut Canvas, at: (i32, i32)) {
    block(canvas, "refused", at, SIGN);
}

fn over(canvas: &mut Canvas, (x, y): (i32, i32)) {
    let x = x + SIGN - 10;
    canvas.path("over", &format!("M{x} {y}v{HIGH}m4 -{HIGH}v{HIGH}"));
}

fn start(canvas: &mut Canvas, (x, y): (i32, i32)) {
    draw_start(canvas, (x + SIGN - 2, y + HIGH / 2));
}

fn last(canvas: &mut Canvas, (x, y): (i32, i32)) {
    let r = Rect::new(x, y, SIGN, HIGH);
    canvas.rect("state", r, 5);
    canvas.rect("final", r.inset(3), 3);
}

fn undo(canvas: &mut Canvas, (x, y): (i32, i32)) {
    canvas.hook((x + SIGN - 14, y + 1));
}

fn deviation(canvas: &mut Canvas, (x, y): (i32, i32)) {
    let (middle, end) = (y + HIGH / 2, x + SIGN);
    canvas.dot("back-tip", (x + 3, middle), 3);
    canvas.path("back", &format!("M{} {middle}H{}", x + 3, end - 7));
    draw_tip(canvas, "back-tip", (end, middle), 1);
}
