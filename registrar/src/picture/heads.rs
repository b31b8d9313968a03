//! The heads of a run's columns: what `unwind` prints for a call, and the call.

use super::bars::BESIDE;
use super::label::{full_in, Line};
use super::marks::OVER;
use super::svg::{CODE, EVENT, HEADING};
use crate::draft::Draft;
use crate::journal::Call;
use crate::limit;
use crate::run::{Answer, Done, Run};
use retraction::Refusal;

/// A column's head.
pub struct Head {
    pub printed: String,
    pub call: String,
    pub said: String,
    pub refused: bool,
    /// Whether the ledger is over by it.
    pub ends: bool,
}

impl Head {
    /// The width that it needs.
    #[must_use]
    pub fn room(&self) -> i32 {
        let call = Line::new(EVENT, &self.call).width();
        let over = if self.ends { HEADING.width(OVER) } else { 0 };
        CODE.width(&self.printed).max(call).max(over) + 2 * BESIDE + 4
    }
}

/// The begin's head, then the calls', then that of a broken record.
#[must_use]
pub fn heads(draft: &Draft, run: &Run) -> Vec<Head> {
    let lines = run.lines();
    let limit = run.ledger.limit();
    let at = limit::told(limit).map_or_else(String::new, |at| format!(" {at}"));
    let begin = Head {
        printed: lines[0].clone(),
        call: format!("begin{}", limit::written(limit)),
        said: format!("The plan is taken, and the ledger begun{at}"),
        refused: false,
        ends: false,
    };
    let mut heads = vec![begin];
    for (n, done) in run.done.iter().enumerate() {
        let (call, said) = call_said(draft, done);
        heads.push(Head {
            printed: done.line(),
            call,
            said: format!("Call {}: {said}", n + 1),
            refused: matches!(done.answer, Answer::Refused(_)),
            ends: done.over && done.before.iter().any(Option::is_some),
        });
    }
    if let Some(broken) = &run.broken {
        heads.push(Head {
            printed: format!("R {}", Refusal::BrokenRecord.number()),
            call: "broken".to_string(),
            said: format!("The journal is broken: {}", broken.what),
            refused: true,
            ends: false,
        });
    }
    heads
}

/// A call by its name, and in full.
fn call_said(draft: &Draft, done: &Done) -> (String, String) {
    let mut said = match done.call {
        Call::Event { event, .. } => {
            let said = format!("event {}", full_in(&draft.names.events, event));
            let known = draft.names.events.names.get(&event);
            let name = known.map_or_else(|| said.clone(), |known| known.name.clone());
            (name, said)
        }
        Call::Signal { .. } => ("withdraw".to_string(), "withdraw".to_string()),
        Call::Fire { track, .. } => {
            let name = format!("take back {}", draft.track(track));
            (name.clone(), name)
        }
        Call::FireLowest { .. } => {
            let next = "take back next".to_string();
            (next.clone(), next)
        }
    };
    if let Answer::Fired { entry, .. } = done.answer {
        said.1 += &format!(": {}", full_in(&draft.names.retractions, entry.code));
    }
    if done.over {
        said.1 += "; the ledger is over";
    }
    said
}
