//! A withdrawal in words.

use super::{Branch, Round, Withdrawal};
use crate::draft::Draft;
use crate::limit;
use crate::look;
use crate::phrase;
use crate::standing::{Mode, Standing};
use crate::tell;

/// What property 3 says of books, and on which conditions.
const RESTORED: &str = "the books stand as at the beginning, if each retraction undoes what it
stands for, steps without one change nothing, and branches leave each other's books alone.";

impl Withdrawal {
    /// The withdrawal in words.
    #[must_use]
    pub fn text(&self, draft: &Draft) -> String {
        let mut lines: Vec<String> = self.kept_at().into_iter().collect();
        lines.push(self.head(draft));
        lines.extend(self.staying(draft));
        let branches = self.rounds.iter().flatten();
        let widths = branches.map(|branch| label(draft, branch).chars().count());
        let width = widths.max().unwrap_or(0);
        for (number, round) in self.rounds.iter().enumerate() {
            lines.push(round_head(draft, number, round));
            lines.extend(round_lines(draft, round, width));
        }
        lines.extend(self.hindered(draft));
        lines.extend(self.ending(draft));
        lines.join("\n") + "\n"
    }

    /// The limit, where it is not the main program's.
    fn kept_at(&self) -> Option<String> {
        let at = limit::told(self.limit)?;
        Some(format!("The ledger is kept {at}."))
    }

    /// How many letters, and how sure that is.
    fn head(&self, draft: &Draft) -> String {
        let society = phrase::society(draft, self.society);
        if self.held == 0 && self.already {
            return "Already withdrawn; no letter is due any more.".to_string();
        }
        if self.held == 0 {
            return format!("If {society} withdrew now, no letter would go out: nothing is held.");
        }
        if self.over && self.rounds.is_empty() {
            return format!("If {society} withdrew now, no letter would go out.");
        }
        let letters = phrase::count(self.letters(), "letter");
        let sure = if self.is_exact() {
            "exactly".to_string()
        } else {
            format!("as things stand, for {}", self.why_not_exact(draft))
        };
        let stop = if self.rounds.is_empty() { "." } else { ":" };
        match (self.already, self.letters()) {
            (false, _) => {
                format!("If {society} withdrew now, {letters} would go out, {sure}{stop}")
            }
            (true, 0) => format!("Already withdrawn; {letters} can go out, {sure}{stop}"),
            (true, 1) => format!("Already withdrawn; {letters} is still due, {sure}{stop}"),
            (true, _) => format!("Already withdrawn; {letters} are still due, {sure}{stop}"),
        }
    }

    fn why_not_exact(&self, draft: &Draft) -> String {
        let mut reasons = Vec::new();
        if !look::is_exact(&self.turned) {
            reasons.push(tell::why_not_exact(draft, &self.turned));
        }
        if !self.barred.is_empty() {
            let barred = phrase::tracks(draft, &self.barred);
            reasons.push(format!("nobody may fire {barred}"));
        }
        reasons.join(", and ")
    }

    /// The tracks that the society has no right to turn.
    fn staying(&self, draft: &Draft) -> Option<String> {
        let forward = self.forward();
        let tracks = Some(phrase::tracks(draft, &forward)).filter(|_| !forward.is_empty())?;
        let verb = phrase::verb(forward.len(), "stays", "stay");
        let society = phrase::society(draft, self.society);
        Some(format!(
            "  {tracks} {verb} forward: {society} has no signal right there."
        ))
    }

    /// The tracks that nobody may fire, and all that waits for them.
    fn hindered(&self, draft: &Draft) -> Vec<String> {
        let told = |&track: &u16| {
            let name = draft.track(track);
            let mut told = format!("  {name} is ready, but nobody has the fire right for it");
            let waiting = waiting_for(draft, &self.end, track);
            if !waiting.is_empty() {
                let verb = phrase::verb(waiting.len(), "waits", "wait");
                told += &format!("; {} {verb} for it", phrase::tracks(draft, &waiting));
            }
            told + "."
        };
        self.barred.iter().map(told).collect()
    }

    /// What is left at the end.
    fn ending(&self, draft: &Draft) -> Vec<String> {
        if self.restored {
            let then = if self.already && self.held == 0 {
                ""
            } else {
                " then"
            };
            return vec![format!("Nothing is left{then}: {RESTORED}")];
        }
        if self.over {
            let dropped = match self.dropped() {
                0 => String::new(),
                1 => ", and 1 retraction is dropped unfired".to_string(),
                n => format!(", and {n} retractions are dropped unfired"),
            };
            return vec![format!("All has ended then{dropped}.")];
        }
        let mut lines = Vec::new();
        let forward = look::in_mode(&self.end, Mode::Forward);
        if !forward.is_empty() {
            let at = |&t: &u16| {
                let standing = self.end[usize::from(t)].as_ref();
                let state = standing.map_or(0, |standing| standing.state);
                format!("{} in {}", draft.track(t), draft.state(state))
            };
            let places: Vec<String> = forward.iter().map(at).collect();
            lines.push(format!("Forward then: {}.", phrase::row(&places)));
        }
        let held = tell::held(draft, &self.end);
        if !held.is_empty() {
            lines.push(format!("Still held then, the newest first: {held}."));
        }
        lines
    }
}

/// The tracks that hold something and host a track, directly or further up.
fn waiting_for(draft: &Draft, standings: &[Option<Standing>], track: u16) -> Vec<u16> {
    let mut waiting = Vec::new();
    let mut at = usize::from(track);
    while let Some(host) = draft.records.host_track(at) {
        let holds = |standing: &Standing| !standing.entries.is_empty();
        if standings[host].as_ref().map_or(false, holds) {
            waiting.push(host as u16);
        }
        at = host;
    }
    waiting
}

/// The head of a round. What its tracks waited for is told here where it is the
/// same for all of them.
fn round_head(draft: &Draft, number: usize, round: &Round) -> String {
    let mut head = format!("  round {}", number + 1);
    if let Some(common) = common_wait(round) {
        let verb = phrase::verb(common.len(), "is", "are");
        head += &format!(", once {} {verb} done", phrase::tracks(draft, common));
    }
    if round.len() > 1 {
        head += ", side by side, in any order";
    }
    head + ":"
}

/// The tracks that every branch of a round waited for, if they are the same.
fn common_wait(round: &Round) -> Option<&[u16]> {
    let first = round.first()?;
    let same = round.iter().all(|branch| branch.after == first.after);
    Some(first.after.as_slice()).filter(|after| same && !after.is_empty())
}

/// The letters of a round, track by track, the names in a column of this width.
fn round_lines(draft: &Draft, round: &Round, width: usize) -> Vec<String> {
    let most = round.iter().map(|branch| branch.letters.len()).max();
    let digits = most.unwrap_or(0).to_string().len();
    let mut lines = Vec::new();
    for branch in round {
        let mut name = label(draft, branch);
        for (place, &letter) in branch.letters.iter().enumerate() {
            let letter = phrase::retraction(draft, letter.code);
            lines.push(format!(
                "    {name:width$}  {:>digits$}. {letter}",
                place + 1
            ));
            name.clear();
        }
        for note in notes(draft, round, branch) {
            lines.push(format!("    {:width$}  {note}", ""));
        }
    }
    lines
}

/// A track's name, with who fires it where there are several societies.
fn label(draft: &Draft, branch: &Branch) -> String {
    let name = draft.track(branch.track);
    if !phrase::several_societies(draft) {
        return name;
    }
    let society = branch.society;
    match draft.names.societies.names.get(&society) {
        Some(known) => format!("{name}, by {}", known.name),
        None => format!("{name}, by society {society}"),
    }
}

/// What is to be said below a track's letters.
fn notes(draft: &Draft, round: &Round, branch: &Branch) -> Vec<String> {
    let mut notes = Vec::new();
    if common_wait(round).is_none() && !branch.after.is_empty() {
        let verb = phrase::verb(branch.after.len(), "is", "are");
        let after = phrase::tracks(draft, &branch.after);
        notes.push(format!("once {after} {verb} done"));
    }
    let onward = branch.letters.last().and_then(|entry| entry.deviation);
    if let Some(state) = onward {
        let mut note = format!("and goes forward again in {}", draft.state(state));
        if !branch.woken.is_empty() {
            note += &format!(", which wakes {}", phrase::tracks(draft, &branch.woken));
        }
        notes.push(note);
    }
    notes
}
