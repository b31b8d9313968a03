//! The limit of a ledger, and what follows from it.

use crate::LEADING_WORDS;

/// The most entries that a track holds. A ledger keeps to the limit that it was
/// begun at; none of its words names it.
///
/// ```
/// use retraction::Limit;
/// assert_eq!(Limit::Main.entries(), 32);
/// assert_eq!(Limit::ReadingRoom.entries(), 8);
/// assert_eq!(Limit::default(), Limit::Main);
/// ```
#[derive(Clone, Copy, Debug, Default, PartialEq, Eq, Hash)]
pub enum Limit {
    /// The main program's: 32 entries.
    #[default]
    Main,
    /// The reading rooms': 8 entries.
    ReadingRoom,
}

impl Limit {
    /// The most entries that a track holds: 32 or 8.
    #[must_use]
    pub const fn entries(self) -> u16 {
        match self {
            Limit::Main => 32,
            Limit::ReadingRoom => 8,
        }
    }

    /// The options of the calls in [`crate::raw`] at this limit: bit 0 is clear
    /// for 32 and set for 8.
    #[must_use]
    pub const fn options(self) -> u32 {
        match self {
            Limit::Main => 0,
            Limit::ReadingRoom => 1,
        }
    }

    /// Words of a ledger for each track: mode, state, count, and a code and a
    /// deviation for each entry.
    #[must_use]
    pub const fn track_words(self) -> usize {
        3 + 2 * self.entries() as usize
    }

    /// Words of a ledger with so many tracks: the leading ones, and those of
    /// each track.
    #[must_use]
    pub const fn ledger_words(self, tracks: usize) -> usize {
        LEADING_WORDS + self.track_words() * tracks
    }
}
