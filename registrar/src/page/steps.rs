//! The run call by call: one section for the begin and for each call, of which
//! the page shows the one that is asked for, and the last if none is.

use super::Journal;
use crate::draft::Draft;
use crate::picture::plan;
use crate::picture::svg::{escape, Rect};
use crate::run::Done;
use crate::standing::{Mode, Standing};
use std::fmt::Write;

/// The id of a step: 0 for the begin, then the calls.
pub fn id(step: usize) -> String {
    format!("step-{step}")
}

/// All sections.
pub fn steps(draft: &Draft, journal: &Journal) -> String {
    let run = journal.run;
    let (size, places) = plan::places(draft);
    let last = run.done.len();
    let mut out = String::new();
    for step in 0..=last {
        let done = step.checked_sub(1).map(|call| &run.done[call]);
        let standings = done.map_or(&run.begun, |done| &done.after);
        let class = if step == last {
            "moment last"
        } else {
            "moment"
        };
        let _ = writeln!(out, "<article id=\"{}\" class=\"{class}\">", id(step));
        out += &turning(step, last);
        out += &heading(journal, step, done);
        out += &picture(step, size, &places, standings);
        out += &table(draft, standings, done);
        out += "</article>\n";
    }
    out
}

/// The way to the step before and to the next.
fn turning(step: usize, last: usize) -> String {
    let mut nav = "<nav aria-label=\"Steps\">\n".to_string();
    let mut link = |to: usize, text: &str| {
        let _ = writeln!(nav, "<a href=\"#{}\">{text}</a>", id(to));
    };
    if step > 0 {
        link(0, "Begin");
        link(step - 1, "Back");
    }
    if step < last {
        link(step + 1, "Forward");
        link(last, "End");
    }
    nav + "</nav>\n"
}

fn heading(journal: &Journal, step: usize, done: Option<&Done>) -> String {
    let call = step.checked_sub(1);
    let told = journal
        .told
        .iter()
        .find(|told| told.call == call && call.is_some());
    let last = journal.run.done.len();
    match (done, told) {
        (None, _) => "<h3>At the begin</h3>\n".to_string(),
        (Some(done), told) => {
            let text = told.map_or("", |told| &told.text);
            let meaning = told.map_or("", |told| &told.meaning);
            format!(
                "<h3>After call {step} of {last}: <code>{}</code> {}</h3>\n<p>{}</p>\n",
                done.line(),
                escape(text.trim()),
                escape(meaning)
            )
        }
    }
}

/// The plan's picture once more, with the states marked that tracks are in.
fn picture(
    step: usize,
    (w, h): (i32, i32),
    places: &[Rect],
    standings: &[Option<Standing>],
) -> String {
    let mut out = format!(
        "<svg role=\"img\" aria-label=\"The plan with the states of step {step} marked\" \
         width=\"{w}\" height=\"{h}\" viewBox=\"0 0 {w} {h}\">\n<use href=\"#plan-drawing\"/>\n"
    );
    for standing in standings.iter().flatten() {
        let class = match standing.mode {
            Mode::Forward => "now-forward",
            Mode::Undoing => "now-undoing",
        };
        if let Some(r) = places.get(usize::from(standing.state)) {
            let _ = writeln!(
                out,
                "<rect class=\"{class}\" x=\"{}\" y=\"{}\" width=\"{}\" height=\"{}\" rx=\"5\"/>",
                r.x, r.y, r.w, r.h
            );
        }
    }
    out + "</svg>\n"
}

/// The tracks that are awake, with what they hold.
fn table(draft: &Draft, standings: &[Option<Standing>], done: Option<&Done>) -> String {
    if standings.iter().all(Option::is_none) {
        return "<p>The ledger is over: every track is asleep, and nothing is held.</p>\n"
            .to_string();
    }
    let mut out = "<table>\n<thead><tr><th scope=\"col\">Track</th><th scope=\"col\">State</th>\
                   <th scope=\"col\">Going</th><th scope=\"col\">Holds, the newest first</th></tr></thead>\n<tbody>\n"
        .to_string();
    for (track, standing) in standings.iter().enumerate() {
        let standing = match standing {
            Some(standing) => standing,
            None => continue,
        };
        let ready = done.map_or(false, |done| done.ready.contains(&(track as u16)));
        let going = match (standing.mode, ready) {
            (Mode::Forward, _) => "forward",
            (Mode::Undoing, false) => "undoing",
            (Mode::Undoing, true) => "undoing, may be taken back",
        };
        let held = standing.entries.iter().rev();
        let held: Vec<String> = held.map(|e| draft.names.retractions.name(e.code)).collect();
        let _ = writeln!(
            out,
            "<tr><td>{}</td><td>{}</td><td>{going}</td><td class=\"holds\">{}</td></tr>",
            escape(&draft.track(track as u16)),
            escape(&draft.state(standing.state)),
            escape(&held.join(", "))
        );
    }
    out + "</tbody>\n</table>\n"
}
