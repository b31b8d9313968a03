//! The limit: the most entries that a track holds. The caller chooses it on each
//! call, and no word of a ledger names it. The rules are for any limit that a
//! word can count; two settings are in use.

use crate::ledger::{LEADING_WORDS, PAIRS};

/// A caller's limit.
#[derive(Clone, Copy, Debug, PartialEq, Eq, Hash)]
pub struct Limit(pub u16);

impl Limit {
    /// The main program's.
    pub const MAIN: Limit = Limit(32);
    /// That of the reading rooms' machine.
    pub const READING_ROOM: Limit = Limit(8);
    /// Both settings.
    pub const SETTINGS: [Limit; 2] = [Limit::MAIN, Limit::READING_ROOM];

    /// Entries that a track can hold.
    pub fn entries(self) -> usize {
        usize::from(self.0)
    }

    /// Words for each track: mode, state, count, and a pair for each entry.
    pub fn track_words(self) -> usize {
        PAIRS + 2 * self.entries()
    }

    /// Where a track's words start.
    pub fn track_start(self, track: usize) -> usize {
        LEADING_WORDS + track * self.track_words()
    }
}
