//! How tracks stand: a ledger's words, read for a person.

use retraction::{Entry, Ledger, LEADING_WORDS};

#[derive(Clone, Copy, Debug, PartialEq, Eq)]
pub enum Mode {
    Forward,
    Undoing,
}

/// An awake track.
#[derive(Clone, Debug, PartialEq, Eq)]
pub struct Standing {
    pub mode: Mode,
    pub state: u16,
    /// What it holds, the oldest first.
    pub entries: Vec<Entry>,
}

/// Each track of a ledger, in track order; `None` where it is asleep.
#[must_use]
pub fn of(ledger: &Ledger<'_>) -> Vec<Option<Standing>> {
    let each = ledger.limit().track_words();
    let tracks = ledger.words()[LEADING_WORDS..].chunks_exact(each);
    let standing = |(track, words): (usize, &[u16])| {
        let mode = match words[0] {
            0 => return None,
            1 => Mode::Forward,
            _ => Mode::Undoing,
        };
        Some(Standing {
            mode,
            state: words[1],
            entries: ledger.entries(track as u16).collect(),
        })
    };
    tracks.enumerate().map(standing).collect()
}

/// How many entries all tracks hold together.
#[must_use]
pub fn held(standings: &[Option<Standing>]) -> usize {
    let awake = standings.iter().flatten();
    awake.map(|standing| standing.entries.len()).sum()
}
