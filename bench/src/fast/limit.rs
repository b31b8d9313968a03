//! The limit, which the caller chooses on each call. It is a constant of the
//! compiled code, once for each limit, so that every place in a ledger is one.

use super::ledger::PAIRS;

/// A limit that a word can count.
pub trait Limit {
    /// Entries that a track can hold.
    const ENTRIES: u16;
    /// Words for each track: mode, state, count, and a pair for each entry.
    const TRACK_WORDS: usize = PAIRS + 2 * Self::ENTRIES as usize;
}

/// The main program's limit.
pub enum Main {}

impl Limit for Main {
    const ENTRIES: u16 = 32;
}

/// The reading rooms' limit.
pub enum ReadingRoom {}

impl Limit for ReadingRoom {
    const ENTRIES: u16 = 8;
}
