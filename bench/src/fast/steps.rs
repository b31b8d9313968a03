//! What the calls do, on an accepted plan and the words of a sound ledger's
//! tracks, whose sets they bring up to date with them.

use super::days::in_range;
use super::ledger::{self, finishes, members, open_scope, Sets};
use super::ledger::{FORWARD, PAIRS, UNDOING};
use super::limit::Limit;
use super::plan::{Plan, FIRE, MOVE, NONE, SIGNAL};
use super::{Entry, Moved, Refused};

/// Begin: roots forward in their first states, others asleep.
#[inline(always)]
pub fn begin<L: Limit>(plan: &Plan, words: &mut [u16]) -> Sets {
    let mut sets = Sets::default();
    words[..plan.tracks * L::TRACK_WORDS].fill(0);
    wake::<L>(plan, words, &mut sets, plan.roots);
    sets
}

/// Wakes sleeping tracks forward in their first states, with the scopes of
/// these.
fn wake<L: Limit>(plan: &Plan, words: &mut [u16], sets: &mut Sets, tracks: u32) {
    sets.awake |= tracks;
    sets.forward |= tracks;
    for track in members(tracks) {
        let state = plan.first[track];
        words[track * L::TRACK_WORDS] = FORWARD;
        words[track * L::TRACK_WORDS + 1] = state;
        enter::<L>(plan, words, sets, track, state);
    }
}

/// Opens the scope of a state that a track has entered, if it hosts.
#[inline(always)]
fn enter<L: Limit>(plan: &Plan, words: &mut [u16], sets: &mut Sets, track: usize, state: u16) {
    let scope = plan.scope(state);
    if scope != 0 {
        sets.open |= 1 << track;
        wake::<L>(plan, words, sets, scope);
    }
}

/// Puts the tracks of a track's open scope to sleep.
#[inline(always)]
fn close<L: Limit>(words: &mut [u16], sets: &mut Sets, host: usize, scope: u32) {
    for track in members(scope) {
        let own = &mut words[track * L::TRACK_WORDS..][..L::TRACK_WORDS];
        let used = PAIRS + 2 * usize::from(own[2]);
        own[..used].fill(0);
    }
    sets.awake &= !scope;
    sets.forward &= !scope;
    sets.holding &= !scope;
    sets.last &= !scope;
    sets.open &= !(1 << host);
}

/// Puts every track to sleep.
#[inline(always)]
fn finish<L: Limit>(plan: &Plan, words: &mut [u16], sets: &mut Sets) {
    words[..plan.tracks * L::TRACK_WORDS].fill(0);
    *sets = Sets::default();
}

/// Installs a code other than 0 in a track that is not full.
#[inline(always)]
fn install<L: Limit>(words: &mut [u16], sets: &mut Sets, track: usize, entry: Entry) {
    if entry.code != 0 {
        let own = &mut words[track * L::TRACK_WORDS..][..L::TRACK_WORDS];
        let at = PAIRS + 2 * usize::from(own[2]);
        own[at] = entry.code;
        own[at + 1] = entry.deviation;
        own[2] += 1;
        sets.holding |= 1 << track;
    }
}

/// Whether installing the code would be one entry more than the limit.
#[inline(always)]
fn overfills<L: Limit>(words: &[u16], track: usize, code: u16) -> bool {
    code != 0 && words[track * L::TRACK_WORDS + 2] == L::ENTRIES
}

/// An event, its day, and the society whose event it is.
#[derive(Clone, Copy, Debug, PartialEq, Eq)]
pub struct Given {
    pub event: u16,
    pub day: i32,
    pub society: u16,
}

/// What an event will do, chosen on the ledger before the call. The scopes that
/// will close are known then, too: a scope that opens has no track in a final
/// state, and a host whose scope closes is in none.
struct Chosen {
    /// The tracks that move, and each one's transition.
    moved: u32,
    moves: [u16; 32],
    /// The tracks in a final state after the moves.
    last: u32,
    /// The tracks whose open scope closes.
    closing: u32,
}

/// Event on a day, which it leaves in the leading words: tracks moved, scopes
/// closed. It moves the society's tracks alone. It leaves undoing tracks as they
/// are, so that those spent afterwards are those spent before.
#[inline(always)]
pub fn event<L: Limit>(
    plan: &Plan,
    leading: &mut [u16],
    words: &mut [u16],
    sets: &mut Sets,
    given: Given,
) -> Result<Moved, Refused> {
    let day = given.day;
    if given.event == 0 {
        return Err(Refused(19));
    }
    if !in_range(day) || day < ledger::day(leading) {
        return Err(Refused(26));
    }
    if sets.awake == 0 {
        return Err(Refused(20));
    }
    let permitted = plan.permitted(given.society, MOVE);
    if permitted == 0 {
        return Err(Refused(28));
    }
    let mut chosen = Chosen {
        moved: 0,
        moves: [0; 32],
        last: sets.last,
        closing: 0,
    };
    chosen.choose_moves::<L>(plan, words, sets.may_move() & permitted, given)?;
    let done = sets.forward & chosen.last;
    chosen.choose_closing::<L>(plan, words, sets, done)?;
    ledger::set_day(leading, day);
    if finishes(plan, done, sets.spent()) {
        finish::<L>(plan, words, sets);
    } else {
        chosen.write::<L>(plan, words, sets);
    }
    Ok(Moved {
        moved: chosen.moved.count_ones() as u16,
        closed: chosen.closing.count_ones() as u16,
    })
}

impl Chosen {
    /// The moves of these tracks; 21 where one would install an entry more than
    /// the limit.
    #[inline(always)]
    fn choose_moves<L: Limit>(
        &mut self,
        plan: &Plan,
        words: &[u16],
        tracks: u32,
        given: Given,
    ) -> Result<(), Refused> {
        for track in members(tracks) {
            let number = plan.transition_number(words[track * L::TRACK_WORDS + 1], given.event);
            if number == 0 || !plan.is_open(number, given.day) {
                continue;
            }
            let transition = plan.transition(number);
            if overfills::<L>(words, track, transition.code) {
                return Err(Refused(21));
            }
            let last = u32::from(plan.is_last(transition.destination));
            self.last = self.last & !(1 << track) | last << track;
            self.moves[track] = number;
            self.moved |= 1 << track;
        }
        Ok(())
    }

    /// The scopes whose tracks are all done after the moves; 21 where a host
    /// would install an entry more than the limit.
    #[inline(always)]
    fn choose_closing<L: Limit>(
        &mut self,
        plan: &Plan,
        words: &[u16],
        sets: &Sets,
        done: u32,
    ) -> Result<(), Refused> {
        for host in members(sets.open) {
            let state = words[host * L::TRACK_WORDS + 1];
            if plan.scope(state) & !done != 0 {
                continue;
            }
            if overfills::<L>(words, host, plan.state(state).replacement) {
                return Err(Refused(21));
            }
            self.closing |= 1 << host;
        }
        Ok(())
    }

    #[inline(always)]
    fn write<L: Limit>(&self, plan: &Plan, words: &mut [u16], sets: &mut Sets) {
        sets.last = self.last;
        for track in members(self.moved) {
            let transition = plan.transition(self.moves[track]);
            let entry = Entry {
                code: transition.code,
                deviation: transition.deviation,
            };
            install::<L>(words, sets, track, entry);
            words[track * L::TRACK_WORDS + 1] = transition.destination;
            enter::<L>(plan, words, sets, track, transition.destination);
        }
        for host in members(self.closing) {
            let state = words[host * L::TRACK_WORDS + 1];
            let entry = Entry {
                code: plan.state(state).replacement,
                deviation: NONE,
            };
            close::<L>(words, sets, host, plan.scope(state));
            install::<L>(words, sets, host, entry);
        }
    }
}

/// Signal: every forward track of the society turns; then abandoning, inner
/// scopes first, whose hosts have the higher numbers. Scopes that do not turn
/// have nothing to abandon. Then finish, where another society's root is done.
/// Answers how many turned.
#[inline(always)]
pub fn signal<L: Limit>(
    plan: &Plan,
    words: &mut [u16],
    sets: &mut Sets,
    society: u16,
) -> Result<u16, Refused> {
    if sets.awake == 0 {
        return Err(Refused(20));
    }
    let permitted = plan.permitted(society, SIGNAL);
    if permitted == 0 {
        return Err(Refused(28));
    }
    let turned = sets.forward & permitted;
    for track in members(turned) {
        words[track * L::TRACK_WORDS] = UNDOING;
    }
    sets.forward &= !turned;
    let mut open = sets.open & turned;
    while open != 0 {
        let host = 31 - open.leading_zeros() as usize;
        open &= !(1 << host);
        abandon::<L>(plan, words, sets, host);
    }
    if finishes(plan, sets.done(), sets.spent()) {
        finish::<L>(plan, words, sets);
    }
    Ok(turned.count_ones() as u16)
}

/// Puts a track's open scope to sleep if it is spent; whether it was.
#[inline(always)]
fn abandon<L: Limit>(plan: &Plan, words: &mut [u16], sets: &mut Sets, host: usize) -> bool {
    let scope = open_scope::<L>(plan, words, host);
    let spent = scope & !sets.spent() == 0;
    if spent {
        close::<L>(words, sets, host, scope);
    }
    spent
}

/// Fire: the newest entry is removed. A deviation turns the track forward, in a
/// state that is not final, so that nothing finishes. Otherwise the last entry
/// abandons its scope, and so on up; then finish. Answers the entry.
#[inline(always)]
pub fn fire<L: Limit>(
    plan: &Plan,
    words: &mut [u16],
    sets: &mut Sets,
    track: u16,
    society: u16,
) -> Result<Entry, Refused> {
    if sets.awake == 0 {
        return Err(Refused(20));
    }
    let exists = usize::from(track) < plan.tracks;
    if exists && plan.permitted(society, FIRE) >> track & 1 == 0 {
        return Err(Refused(28));
    }
    if track >= 32 || sets.ready() >> track & 1 == 0 {
        return Err(Refused(22));
    }
    let track = usize::from(track);
    let entry = remove::<L>(words, track);
    if words[track * L::TRACK_WORDS + 2] == 0 {
        sets.holding &= !(1 << track);
    }
    if entry.deviation != NONE {
        words[track * L::TRACK_WORDS] = FORWARD;
        words[track * L::TRACK_WORDS + 1] = entry.deviation;
        sets.forward |= 1 << track;
        sets.last &= !(1 << track);
        enter::<L>(plan, words, sets, track, entry.deviation);
        return Ok(entry);
    }
    let mut inner = track;
    while plan.host[inner] != NONE
        && abandon::<L>(plan, words, sets, usize::from(plan.above[inner]))
    {
        inner = usize::from(plan.above[inner]);
    }
    if finishes(plan, sets.done(), sets.spent()) {
        finish::<L>(plan, words, sets);
    }
    Ok(entry)
}

/// Removes the newest entry of a track that holds one.
#[inline(always)]
fn remove<L: Limit>(words: &mut [u16], track: usize) -> Entry {
    let own = &mut words[track * L::TRACK_WORDS..][..L::TRACK_WORDS];
    own[2] -= 1;
    let at = PAIRS + 2 * usize::from(own[2]);
    let pair = &mut own[at..at + 2];
    let entry = Entry {
        code: pair[0],
        deviation: pair[1],
    };
    pair.fill(0);
    entry
}
