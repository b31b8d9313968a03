//! Reading a plan: refusals 2 to 16, 25 and 27. Each record is visited once.
//! Numbers 8 to 16, 25 and 27 are gathered as bits on the way, and the lowest one
//! counts.

use super::days::{FIRST_DAY, LAST_DAY};
use super::Refused;

/// A root's host, and a deviation that is none.
pub const NONE: u16 = 65535;

const MAX_TRACKS: usize = 32;
pub const MAX_STATES: usize = 128;
pub const MAX_TRANSITIONS: usize = 256;
const MAX_HEIGHT: u8 = 8;
const MAX_RIGHTS: usize = 64;

/// What a society may do; a rights record has them added up.
pub const MOVE: u16 = 1;
pub const SIGNAL: u16 = 2;
pub const FIRE: u16 = 4;
const ALL: u16 = MOVE + SIGNAL + FIRE;

/// Length and kind, as one number out of a record's first four bytes.
const TRACK: u32 = 6 | 1 << 16;
const STATE: u32 = 10 | 2 << 16;
const TRANSITION: u32 = 14 | 3 << 16;
const WINDOW: u32 = 14 | 5 << 16;
const RIGHTS: u32 = 10 | 6 << 16;
const END: u32 = 4 | 4 << 16;

/// The length of a transition's record, and of a window's.
const STEP_BYTES: usize = 14;

/// The length of a rights record.
const RIGHTS_BYTES: usize = 10;

/// Places for transitions, at least half of them free.
const PLACES: usize = 2 * MAX_TRANSITIONS;

/// Places for pairs of society and root, at least three quarters of them free.
const PAIR_PLACES: usize = 4 * MAX_RIGHTS;

#[derive(Clone, Copy)]
pub struct State {
    pub track: u8,
    pub last: bool,
    pub replacement: u16,
}

pub struct Transition {
    pub source: u16,
    pub code: u16,
    pub deviation: u16,
    pub destination: u16,
}

/// An accepted plan. Tables have room for the largest. A number is looked up
/// modulo their size, so that no bound is checked twice: while the plan is
/// read, one beyond them finds some state, and is refused by its own test.
pub struct Plan<'a> {
    pub tracks: usize,
    pub states: usize,
    /// The records of the transitions.
    transitions: &'a [u8],
    /// The records of the windows.
    windows: &'a [u8],
    /// The rights records.
    rights: &'a [u8],
    /// Each transition's window by its number, one more; 0 for none.
    window: [u16; MAX_TRANSITIONS],
    /// The tracks that have no host.
    pub roots: u32,
    /// Each track's hosting state, `NONE` for a root.
    pub host: [u16; MAX_TRACKS],
    /// The track of the hosting state.
    pub above: [u8; MAX_TRACKS],
    /// Of each root, itself and the tracks under it.
    family: [u32; MAX_TRACKS],
    /// Each track's lowest-numbered state.
    pub first: [u16; MAX_TRACKS],
    state: [State; MAX_STATES],
    /// The tracks that each state hosts.
    scope: [u32; MAX_STATES],
    /// Numbers of transitions, one more each; 0 is a free place.
    places: [u16; PLACES],
}

impl<'a> Plan<'a> {
    /// A plan to be read. It is large, so it is read where it stands.
    #[inline(always)]
    pub fn unread() -> Plan<'a> {
        let state = State {
            track: 0,
            last: false,
            replacement: 0,
        };
        Plan {
            tracks: 0,
            states: 0,
            transitions: &[],
            windows: &[],
            rights: &[],
            window: [0; MAX_TRANSITIONS],
            roots: 0,
            host: [NONE; MAX_TRACKS],
            above: [0; MAX_TRACKS],
            family: [0; MAX_TRACKS],
            first: [NONE; MAX_TRACKS],
            state: [state; MAX_STATES],
            scope: [0; MAX_STATES],
            places: [0; PLACES],
        }
    }

    /// Reads a plan not yet read.
    #[inline(always)]
    pub fn read(&mut self, bytes: &'a [u8]) -> Result<(), Refused> {
        let mut faults = Faults(0);
        let rest = self.read_tracks(bytes);
        let rest = self.read_states(rest, &mut faults);
        self.place_tracks(&mut faults);
        self.judge_hosting(&mut faults);
        match self.read_steps(rest, &mut faults) {
            true => faults.lowest(),
            false => Err(out_of_shape(bytes)),
        }
    }

    /// The tracks at the front, and the bytes after them.
    #[inline(always)]
    fn read_tracks(&mut self, bytes: &'a [u8]) -> &'a [u8] {
        let records = bytes.chunks_exact(6).take(MAX_TRACKS);
        for record in records.take_while(|record| head(record) == TRACK) {
            let host = word(record, 4);
            self.host[self.tracks % MAX_TRACKS] = host;
            self.roots |= u32::from(host == NONE) << self.tracks;
            self.tracks += 1;
        }
        &bytes[6 * self.tracks..]
    }

    /// The states at the front, and the bytes after them; 9.
    #[inline(always)]
    fn read_states(&mut self, bytes: &'a [u8], faults: &mut Faults) -> &'a [u8] {
        let records = bytes.chunks_exact(10).take(MAX_STATES);
        for record in records.take_while(|record| head(record) == STATE) {
            let (track, last, replacement) = (word(record, 4), word(record, 6), word(record, 8));
            faults.add(9, usize::from(track) >= self.tracks || last > 1);
            let first = &mut self.first[usize::from(track) % MAX_TRACKS];
            *first = (*first).min(self.states as u16);
            self.state[self.states % MAX_STATES] = State {
                track: track as u8,
                last: last == 1,
                replacement,
            };
            self.states += 1;
        }
        &bytes[10 * self.states..]
    }

    /// Puts each track into its host's scope and its root's family; 8, 10, 11
    /// and 16.
    #[inline(always)]
    fn place_tracks(&mut self, faults: &mut Faults) {
        let mut depth = [1; MAX_TRACKS];
        let mut root = [0; MAX_TRACKS];
        faults.add(8, self.tracks == 0);
        for track in 0..self.tracks.min(MAX_TRACKS) {
            let first = self.first[track];
            faults.add(11, first == NONE || self.is_last(first));
            let host = self.host[track];
            if host == NONE {
                root[track] = track;
                self.family[track] |= 1 << track;
                continue;
            }
            let above = usize::from(self.state(host).track);
            faults.add(10, usize::from(host) >= self.states || above >= track);
            self.above[track] = above as u8;
            self.scope[usize::from(host) % MAX_STATES] |= 1 << track;
            root[track] = root[above % MAX_TRACKS];
            self.family[root[track]] |= 1 << track;
            depth[track] = depth[above % MAX_TRACKS] + 1;
            faults.add(16, depth[track] > MAX_HEIGHT);
        }
    }

    /// 12: a final state hosts, or one that hosts none has a replacement.
    #[inline(always)]
    fn judge_hosting(&self, faults: &mut Faults) {
        let states = self.states.min(MAX_STATES);
        let mut wrong = false;
        for (state, &scope) in self.state[..states].iter().zip(&self.scope[..states]) {
            wrong |= if scope == 0 {
                state.replacement != 0
            } else {
                state.last
            };
        }
        faults.add(12, wrong);
    }

    /// The transitions, the windows, the rights and the end, which must be all
    /// that is left. Whether the bytes have that shape.
    #[inline(always)]
    fn read_steps(&mut self, bytes: &'a [u8], faults: &mut Faults) -> bool {
        let rest = self.read_transitions(bytes, faults);
        let rest = self.read_windows(rest, faults);
        let end = self.read_rights(rest, faults);
        end.len() == 4 && head(end) == END
    }

    /// The transitions at the front, and the bytes after them; 13, 14 and 15.
    #[inline(always)]
    fn read_transitions(&mut self, bytes: &'a [u8], faults: &mut Faults) -> &'a [u8] {
        self.transitions = bytes;
        let mut count = 0;
        let records = bytes.chunks_exact(STEP_BYTES).take(MAX_TRANSITIONS);
        for record in records.take_while(|record| head(record) == TRANSITION) {
            self.judge_transition(record, faults);
            self.place_transition(count, record, faults);
            count += 1;
        }
        let (transitions, rest) = bytes.split_at(count * STEP_BYTES);
        self.transitions = transitions;
        rest
    }

    /// The windows at the front, and the bytes after them; 25. The branches are
    /// those that an accepted plan never takes.
    #[inline(always)]
    fn read_windows(&mut self, bytes: &'a [u8], faults: &mut Faults) -> &'a [u8] {
        let transitions = self.transition_count();
        let mut count = 0;
        let records = bytes.chunks_exact(STEP_BYTES);
        for record in records.take_while(|record| head(record) == WINDOW) {
            let transition = usize::from(word(record, 4));
            let (first, last) = (signed(record, 6), signed(record, 10));
            let window = &mut self.window[transition % MAX_TRANSITIONS];
            if transition >= transitions || *window != 0 {
                faults.add(25, true);
            }
            if first < FIRST_DAY || last < first || LAST_DAY < last {
                faults.add(25, true);
            }
            count += 1;
            *window = count as u16;
        }
        let (windows, rest) = bytes.split_at(count * STEP_BYTES);
        self.windows = windows;
        rest
    }

    /// The rights at the front, and the bytes after them; 27. The branches are
    /// those that an accepted plan never takes.
    #[inline(always)]
    fn read_rights(&mut self, bytes: &'a [u8], faults: &mut Faults) -> &'a [u8] {
        let mut places = [0; PAIR_PLACES];
        let mut count = 0;
        let records = bytes.chunks_exact(RIGHTS_BYTES);
        for record in records.take_while(|record| head(record) == RIGHTS) {
            let (root, sum) = (word(record, 6), word(record, 8));
            count += 1;
            if root >= 32 || self.roots >> root & 1 == 0 || sum == 0 || sum > ALL {
                faults.add(27, true);
            }
            if count > MAX_RIGHTS || !place_pair(&mut places, bytes, count) {
                faults.add(27, true);
            }
        }
        let (rights, rest) = bytes.split_at(count * RIGHTS_BYTES);
        self.rights = rights;
        rest
    }

    /// The tracks for which a society has a right, of an accepted plan; none
    /// exactly if it has it nowhere.
    #[inline(always)]
    pub fn permitted(&self, society: u16, right: u16) -> u32 {
        let records = self.rights.chunks_exact(RIGHTS_BYTES);
        records.fold(0, |tracks, record| {
            let given = word(record, 4) == society && word(record, 8) & right != 0;
            let family = self.family[usize::from(word(record, 6)) % MAX_TRACKS];
            tracks | if given { family } else { 0 }
        })
    }

    /// 13 and 14.
    #[inline(always)]
    fn judge_transition(&self, record: &[u8], faults: &mut Faults) {
        let (from, to) = (word(record, 4), word(record, 12));
        let (source, destination) = (self.state(from), self.state(to));
        let exist = usize::from(from.max(to)) < self.states;
        let fits = exist & (source.track == destination.track) & !source.last;
        faults.add(13, !fits | (word(record, 6) == 0));
        let deviation = word(record, 10);
        if deviation != NONE {
            let root = self.roots >> (source.track % 32) & 1 == 1;
            let own = self.is_open_state(usize::from(source.track), deviation);
            faults.add(14, !root | !own | (word(record, 8) == 0));
        }
    }

    /// Gives the transition a place; 15.
    #[inline(always)]
    fn place_transition(&mut self, number: usize, record: &[u8], faults: &mut Faults) {
        let key = key_of(record);
        let mut place = place(key);
        while self.places[place] != 0 {
            if key_of(self.record(self.places[place])) == key {
                faults.add(15, true);
                return;
            }
            place = (place + 1) % PLACES;
        }
        self.places[place] = number as u16 + 1;
    }

    /// The record of the transition whose number, one more, is given.
    #[inline(always)]
    fn record(&self, number: u16) -> &'a [u8] {
        let at = (usize::from(number) - 1) * STEP_BYTES;
        &self.transitions[at..at + STEP_BYTES]
    }

    /// Whether the transition whose number, one more, is given may be taken on
    /// a day: it has no window, or one with that day.
    #[inline(always)]
    pub fn is_open(&self, number: u16, day: i32) -> bool {
        let window = usize::from(self.window[(usize::from(number) - 1) % MAX_TRANSITIONS]);
        if window == 0 {
            return true;
        }
        let record = &self.windows[(window - 1) * STEP_BYTES..][..STEP_BYTES];
        signed(record, 6) <= day && day <= signed(record, 10)
    }

    #[inline(always)]
    pub fn transition_count(&self) -> usize {
        self.transitions.len() / STEP_BYTES
    }

    #[inline(always)]
    pub fn state(&self, state: u16) -> State {
        self.state[usize::from(state) % MAX_STATES]
    }

    #[inline(always)]
    pub fn is_last(&self, state: u16) -> bool {
        self.state(state).last
    }

    #[inline(always)]
    pub fn scope(&self, state: u16) -> u32 {
        self.scope[usize::from(state) % MAX_STATES]
    }

    /// Whether it is a state of the track that is not final.
    #[inline(always)]
    pub fn is_open_state(&self, track: usize, number: u16) -> bool {
        let state = self.state(number);
        let own = usize::from(state.track) == track;
        (usize::from(number) < self.states) & own & !state.last
    }

    /// The number, one more, of the state's transition for that event; 0 if it
    /// has none.
    #[inline(always)]
    pub fn transition_number(&self, state: u16, event: u16) -> u16 {
        let key = u32::from(state) | u32::from(event) << 16;
        let mut place = place(key);
        while self.places[place] != 0 && key_of(self.record(self.places[place])) != key {
            place = (place + 1) % PLACES;
        }
        self.places[place]
    }

    /// The transition of a number that is not 0.
    #[inline(always)]
    pub fn transition(&self, number: u16) -> Transition {
        let record = self.record(number);
        Transition {
            source: word(record, 4),
            code: word(record, 8),
            deviation: word(record, 10),
            destination: word(record, 12),
        }
    }
}

/// The numbers 8 to 16, 25 and 27 that apply, a bit for each.
struct Faults(u32);

impl Faults {
    #[inline(always)]
    fn add(&mut self, number: u32, applies: bool) {
        self.0 |= u32::from(applies) << number;
    }

    #[inline(always)]
    fn lowest(&self) -> Result<(), Refused> {
        match self.0 {
            0 => Ok(()),
            faults => Err(Refused(faults.trailing_zeros() as u16)),
        }
    }
}

/// The little-endian word at byte `at`.
#[inline(always)]
fn word(bytes: &[u8], at: usize) -> u16 {
    u16::from_le_bytes([bytes[at], bytes[at + 1]])
}

/// The signed number in the four bytes from `at` on.
#[inline(always)]
fn signed(bytes: &[u8], at: usize) -> i32 {
    i32::from_le_bytes([bytes[at], bytes[at + 1], bytes[at + 2], bytes[at + 3]])
}

/// Length and kind of a record.
#[inline(always)]
fn head(record: &[u8]) -> u32 {
    u32::from_le_bytes([record[0], record[1], record[2], record[3]])
}

/// Source and event of a transition, or society and root of a rights record, as
/// one number.
#[inline(always)]
fn key_of(record: &[u8]) -> u32 {
    u32::from_le_bytes([record[4], record[5], record[6], record[7]])
}

/// Where the search for a key starts: the highest bits of a product.
#[inline(always)]
fn place(key: u32) -> usize {
    (key.wrapping_mul(0x9E37_79B1) >> (32 - PLACES.trailing_zeros())) as usize
}

/// Gives the pair of a rights record a place, that of the record whose number,
/// one more, is given; `false` if another record has the same pair.
#[inline(always)]
fn place_pair(places: &mut [u8; PAIR_PLACES], rights: &[u8], number: usize) -> bool {
    let pair = |number: usize| key_of(&rights[(number - 1) * RIGHTS_BYTES..]);
    let key = pair(number);
    let highest = key.wrapping_mul(0x9E37_79B1) >> (32 - PAIR_PLACES.trailing_zeros());
    let mut place = highest as usize;
    while places[place] != 0 {
        if pair(usize::from(places[place])) == key {
            return false;
        }
        place = (place + 1) % PAIR_PLACES;
    }
    places[place] = number as u8;
    true
}

/// The first of 2 to 7, for bytes that are not tracks, states, transitions,
/// windows, rights and an end.
#[cold]
fn out_of_shape(bytes: &[u8]) -> Refused {
    let kinds = [1, 2, 3, 5, 6, 4];
    let lengths = [6, 10, 14, 14, 10, 4];
    // Any number of windows and of rights records.
    let any = usize::MAX;
    let mut left = [MAX_TRACKS, MAX_STATES, MAX_TRANSITIONS, any, any, 1];
    let (mut rest, mut before) = (bytes, 0);
    loop {
        if rest.len() < 4 {
            return Refused(2);
        }
        let (length, kind) = (usize::from(word(rest, 0)), word(rest, 2));
        let place = match kinds.iter().position(|&known| known == kind) {
            Some(place) if place >= before => place,
            _ => return Refused(3),
        };
        if length != lengths[place] {
            return Refused(4);
        }
        if rest.len() < length {
            return Refused(5);
        }
        if left[place] == 0 {
            return Refused(6);
        }
        if kind == 4 {
            return Refused(7);
        }
        left[place] -= 1;
        before = place;
        rest = &rest[length..];
    }
}
