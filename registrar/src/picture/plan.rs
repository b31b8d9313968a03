//! A plan as a picture: tracks as boxes, states in them, steps as arrows with
//! their event and, under it, the retraction that takes them back.

use super::arrows::{Arrow, ARM, LOOP};
use super::label::full;
use super::layout::{self, StateBox, TrackBox, HEAD, MIDDLE};
use super::legend;
use super::svg::{Canvas, Rect, HEADING, SMALL, STATE};
use crate::draft::Draft;

/// Room at the picture's edges.
const EDGE: i32 = 12;

const STYLE: &str = "\
.track{fill:#f1f4f7;stroke:#8b98a5}
.state{fill:#fff;stroke:#1f3a5f;stroke-width:1.5}
.final{fill:none;stroke:#1f3a5f}
.step{fill:none;stroke:#1f3a5f;stroke-width:1.3}
.upright{fill:none;stroke:#7d8894}
.tip{fill:#1f3a5f}
.back{fill:none;stroke:#9a3412;stroke-width:1.3;stroke-dasharray:5 3}
.back-tip{fill:#9a3412}
";

/// The picture of an accepted plan, as SVG.
#[must_use]
pub fn plan(draft: &Draft) -> String {
    let (roots, size) = layout::of(draft);
    let mut canvas = Canvas::default();
    for root in &roots {
        draw_track(&mut canvas, draft, root);
    }
    let deviates = draft.records.steps.iter().any(|x| x.deviation.is_some());
    let signs = &legend::PLAN[..if deviates { 4 } else { 3 }];
    let corner = legend::draw(&mut canvas, signs, (EDGE, size.1), size.0.clamp(480, 1000));
    let size = (size.0.max(corner.0 + EDGE), corner.1 + EDGE);
    let said = format!("The plan {}", full(&draft.names.plan));
    canvas.finish("plan", said.trim_end(), size, STYLE)
}

/// The size of that picture without its legend, and the head of each state by
/// its number.
#[must_use]
pub fn places(draft: &Draft) -> ((i32, i32), Vec<Rect>) {
    let (roots, size) = layout::of(draft);
    let mut places = vec![Rect::default(); draft.records.states.len()];
    let mut left: Vec<&TrackBox> = roots.iter().collect();
    while let Some(track) = left.pop() {
        for state in &track.states {
            places[state.state] = Rect {
                h: state.head,
                ..state.rect
            };
            left.extend(&state.hosted);
        }
    }
    (size, places)
}

fn draw_track(canvas: &mut Canvas, draft: &Draft, track: &TrackBox) {
    let (x, y) = (track.rect.x + 12, track.rect.y + 8);
    canvas.open(
        "lane",
        &format!("Track {}", full(&draft.names.tracks[track.track])),
    );
    canvas.rect("track", track.rect, 7);
    canvas.heading((x, y), &track.name, &track.words, track.rect);
    for (n, right) in track.rights.iter().enumerate() {
        let top = y + HEADING.line() + 2 + n as i32 * SMALL.line();
        canvas.text(SMALL, (x, top), right, track.rect);
    }
    canvas.close();
    draw_uprights(canvas, track);
    for arrow in &track.arrows {
        canvas.open("arrow", &arrow.said);
        draw_arrow(canvas, track, arrow);
        arrow
            .label
            .draw(canvas, (arrow.at.1, arrow.at.0), arrow.room);
        canvas.close();
    }
    for (n, state) in track.states.iter().enumerate() {
        draw_state(canvas, draft, state, n == 0);
    }
}

fn draw_uprights(canvas: &mut Canvas, track: &TrackBox) {
    for state in &track.states {
        if let (x, Some(top)) = state.upright {
            canvas.path("upright", &format!("M{x} {top}V{}", state.rect.y));
        }
    }
}

fn draw_arrow(canvas: &mut Canvas, track: &TrackBox, arrow: &Arrow) {
    let (line, tip) = if arrow.dashed {
        ("back", "back-tip")
    } else {
        ("step", "tip")
    };
    let (from, to) = (&track.states[arrow.from], &track.states[arrow.to]);
    let y = arrow.at.0;
    if arrow.plain {
        let (start, end) = (from.rect.right(), to.rect.x);
        canvas.path(line, &format!("M{start} {y}H{}", end - 7));
        return draw_tip(canvas, tip, (end, y), 1);
    }
    let (start, end) = (from.upright.0, to.upright.0);
    canvas.dot(tip, (start, if start == end { y - ARM } else { y }), 3);
    if start == end {
        let (up, out) = (y - ARM, LOOP - ARM);
        let bend = format!("a{ARM} {ARM} 0 0 1 0 {}", 2 * ARM);
        canvas.path(line, &format!("M{start} {up}h{out}{bend}H{}", start + 7));
        return draw_tip(canvas, tip, (start, y + ARM), -1);
    }
    let way = (end - start).signum();
    canvas.path(line, &format!("M{start} {y}H{}", end - 7 * way));
    draw_tip(canvas, tip, (end, y), way);
}

/// The mark of the start, its arrow's point here.
pub fn draw_start(canvas: &mut Canvas, (x, y): (i32, i32)) {
    canvas.dot("tip", (x - 22, y), 5);
    canvas.path("step", &format!("M{} {y}H{}", x - 22, x - 7));
    draw_tip(canvas, "tip", (x, y), 1);
}

/// An arrow's head that points right (1) or left (-1), its point here.
pub fn draw_tip(canvas: &mut Canvas, class: &str, (x, y): (i32, i32), way: i32) {
    canvas.path(class, &format!("M{x} {y}l{} -4v8z", -8 * way));
}

fn draw_state(canvas: &mut Canvas, draft: &Draft, state: &StateBox, first: bool) {
    let record = draft.records.states[state.state];
    let r = state.rect;
    let mut said = format!("State {}", full(&draft.names.states[state.state]));
    if first {
        said += ", where the track starts";
        draw_start(canvas, (r.x, r.y + MIDDLE));
    }
    if record.last != 0 {
        said += ", final";
    }
    canvas.open("place", &said);
    canvas.rect("state", r, 5);
    if record.last != 0 {
        canvas.rect("final", r.inset(3), 3);
    }
    let top = r.y + MIDDLE - STATE.line() / 2;
    if state.hosted.is_empty() {
        canvas.centred(STATE, (r.x + r.w / 2, top), &state.name, r);
    } else {
        canvas.text(STATE, (r.x + 12, top), &state.name, r);
    }
    if let Some(line) = &state.complete {
        line.draw(canvas, (r.x + 12, r.y + HEAD - 4), r);
    }
    canvas.close();
    for track in &state.hosted {
        draw_track(canvas, draft, track);
    }
}
