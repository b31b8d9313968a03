//! The ledger's leading words, and its tracks as sets, read off their words in
//! one visit to each. But for the leading words, `words` are the tracks' alone.

use super::limit::Limit;
use super::plan::{Plan, NONE};

/// Words by which a ledger is known: the plan's length and its sum.
pub const PLAN_WORDS: usize = 2;
/// Words before those of the tracks: the plan's, and the last accepted day's.
pub const LEADING_WORDS: usize = 4;
/// Where a track's pairs start among its words.
pub const PAIRS: usize = 3;
/// Modes of a track that is awake.
pub const FORWARD: u16 = 1;
pub const UNDOING: u16 = 2;

/// The first words of the ledgers of a plan that is accepted, so that its
/// length fits a word.
#[inline(always)]
pub fn plan_words(plan: &[u8]) -> [u16; PLAN_WORDS] {
    [plan.len() as u16, sum(plan)]
}

/// The last accepted day, as the leading words have it.
#[inline(always)]
pub fn day(leading: &[u16]) -> i32 {
    (u32::from(leading[PLAN_WORDS + 1]) << 16 | u32::from(leading[PLAN_WORDS])) as i32
}

/// Writes the last accepted day into the leading words.
#[inline(always)]
pub fn set_day(leading: &mut [u16], day: i32) {
    leading[PLAN_WORDS] = day as u16;
    leading[PLAN_WORDS + 1] = (day >> 16) as u16;
}

/// The sum of an even number of bytes. It goes word by word, as many at once as
/// the machine adds.
#[inline(always)]
pub fn sum(plan: &[u8]) -> u16 {
    let words = plan.chunks_exact(2);
    words.fold(0, |sum: u16, pair| {
        sum.wrapping_add(u16::from_le_bytes([pair[0], pair[1]]))
    })
}

/// Sets of tracks, a bit for each.
#[derive(Clone, Copy, Debug, Default, PartialEq, Eq)]
pub struct Sets {
    pub awake: u32,
    pub forward: u32,
    /// Those that hold an entry.
    pub holding: u32,
    /// Those in a final state.
    pub last: u32,
    /// Those whose state has its scope open.
    pub open: u32,
}

impl Sets {
    /// The sets of a sound ledger's tracks, which have enough words; `None` if
    /// it is not sound.
    #[inline(always)]
    pub fn of<L: Limit>(plan: &Plan, words: &[u16]) -> Option<Sets> {
        let words = &words[..plan.tracks * L::TRACK_WORDS];
        let mut sets = Sets::default();
        for (track, own) in words.chunks_exact(L::TRACK_WORDS).enumerate() {
            if !sets.add::<L>(plan, words, track, own) {
                return None;
            }
        }
        (sets.awake == 0 || sets.is_settled::<L>(plan, words)).then_some(sets)
    }

    /// Adds one track; whether its words are sound by themselves and beside
    /// its host's.
    #[inline(always)]
    fn add<L: Limit>(&mut self, plan: &Plan, words: &[u16], track: usize, own: &[u16]) -> bool {
        let (mode, number, count) = (own[0], own[1], own[2]);
        if mode == 0 {
            return are_zero(own);
        }
        let state = plan.state(number);
        let exists = usize::from(number) < plan.states && usize::from(state.track) == track;
        if mode > UNDOING || count > L::ENTRIES || !exists {
            return false;
        }
        let bit = 1 << track;
        self.awake |= bit;
        self.forward |= u32::from(mode == FORWARD) << track;
        self.holding |= u32::from(count != 0) << track;
        self.last |= u32::from(state.last) << track;
        let (held, unused) = own[PAIRS..].split_at(2 * usize::from(count));
        let host = plan.host[track % 32];
        if host == NONE {
            return are_zero(unused) && fit_root(plan, track, held);
        }
        let above = usize::from(plan.above[track % 32]);
        self.open |= 1 << above;
        let at = above * L::TRACK_WORDS;
        let beside = words[at] == mode && words[at + 1] == host;
        beside && are_zero(unused) && fit_hosted(held)
    }

    /// Every root awake, scopes awake as a whole, and no settling left to do.
    #[inline(always)]
    fn is_settled<L: Limit>(&self, plan: &Plan, words: &[u16]) -> bool {
        let (done, spent) = (self.done(), self.spent());
        let scope_fits = |host: usize| {
            let scope = open_scope::<L>(plan, words, host);
            (scope & !self.awake == 0) & (scope & !done != 0) & (scope & !spent != 0)
        };
        plan.roots & !self.awake == 0
            && !finishes(plan, done, spent)
            && members(self.open).all(scope_fits)
    }

    /// Forward in a final state.
    #[inline(always)]
    pub fn done(&self) -> u32 {
        self.forward & self.last
    }

    /// Undoing, holding nothing and without an open scope.
    #[inline(always)]
    pub fn spent(&self) -> u32 {
        self.awake & !(self.forward | self.holding | self.open)
    }

    /// Those that may be fired: undoing, holding an entry and without an open
    /// scope.
    #[inline(always)]
    pub fn ready(&self) -> u32 {
        self.holding & !(self.forward | self.open)
    }

    /// Forward and without an open scope.
    #[inline(always)]
    pub fn may_move(&self) -> u32 {
        self.forward & !self.open
    }
}

/// Whether every root is done or spent, and at least one is done.
#[inline(always)]
pub fn finishes(plan: &Plan, done: u32, spent: u32) -> bool {
    (plan.roots & !(done | spent) == 0) & (plan.roots & done != 0)
}

/// The scope that a track with an open scope has open.
#[inline(always)]
pub fn open_scope<L: Limit>(plan: &Plan, words: &[u16], host: usize) -> u32 {
    plan.scope(words[host * L::TRACK_WORDS + 1])
}

/// The track numbers whose bits are set, the lowest first.
#[inline(always)]
pub fn members(mut tracks: u32) -> impl Iterator<Item = usize> {
    std::iter::from_fn(move || {
        let track = tracks.trailing_zeros() as usize;
        tracks &= tracks.wrapping_sub(1);
        (track < 32).then_some(track)
    })
}

/// All the words are read, so that many can be read at once.
#[inline(always)]
fn are_zero(words: &[u16]) -> bool {
    words.iter().fold(0, |all, word| all | word) == 0
}

/// Codes are not 0; deviations are none, or states of the root not final.
#[inline(always)]
fn fit_root(plan: &Plan, track: usize, held: &[u16]) -> bool {
    held.chunks_exact(2)
        .all(|pair| pair[0] != 0 && (pair[1] == NONE || plan.is_open_state(track, pair[1])))
}

/// Codes are not 0; deviations are none.
#[inline(always)]
fn fit_hosted(held: &[u16]) -> bool {
    held.chunks_exact(2)
        .fold(true, |fit, pair| fit & (pair[0] != 0) & (pair[1] == NONE))
}
