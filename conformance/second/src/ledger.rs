//! The ledger: two leading words, by which it is known to be the plan's, two
//! more for the last accepted day, then 3 + 2 * limit words for each track; and
//! what makes it sound. The limit is that of the call.

use crate::days::Term;
use crate::limit::Limit;
use crate::plan::{members, Plan, NONE};
use crate::record;

/// Words by which a ledger is known: the plan's length and its sum.
pub const PLAN_WORDS: usize = 2;
/// Words before those of the tracks: the plan's and the day's.
pub const LEADING_WORDS: usize = 4;
/// Where a track's pairs start among its words.
pub const PAIRS: usize = 3;

/// A track's mode.
#[derive(Clone, Copy, Debug, PartialEq, Eq)]
pub enum Mode {
    Asleep,
    Forward,
    Undoing,
}

impl Mode {
    fn of(word: u16) -> Mode {
        match word {
            0 => Mode::Asleep,
            1 => Mode::Forward,
            _ => Mode::Undoing,
        }
    }

    fn word(self) -> u16 {
        match self {
            Mode::Asleep => 0,
            Mode::Forward => 1,
            Mode::Undoing => 2,
        }
    }
}

/// An entry: a retraction code and its deviation state.
#[derive(Clone, Copy, Debug, Default, PartialEq, Eq)]
pub struct Entry {
    pub code: u16,
    pub deviation: u16,
}

/// A track's words, decoded.
#[derive(Clone, Debug, PartialEq, Eq)]
pub struct Track {
    pub mode: Mode,
    pub state: u16,
    entries: Vec<Entry>,
}

impl Track {
    pub const ASLEEP: Track = Track {
        mode: Mode::Asleep,
        state: 0,
        entries: Vec::new(),
    };

    /// A track awake in a state and holding nothing.
    pub fn awake(mode: Mode, state: u16) -> Track {
        Track {
            mode,
            state,
            ..Track::ASLEEP
        }
    }

    pub fn is_awake(&self) -> bool {
        self.mode != Mode::Asleep
    }

    /// How many entries it holds.
    pub fn held(&self) -> usize {
        self.entries.len()
    }

    /// The entries held, oldest first.
    pub fn entries(&self) -> &[Entry] {
        &self.entries
    }

    /// Full: holds as many entries as the limit allows.
    pub fn is_full(&self, limit: Limit) -> bool {
        self.held() == limit.entries()
    }

    /// Installs the newest entry; the track must not be full.
    pub fn install(&mut self, entry: Entry) {
        self.entries.push(entry);
    }

    /// Removes the newest entry, if any.
    pub fn remove(&mut self) -> Option<Entry> {
        self.entries.pop()
    }

    /// Decodes the words of a track of a sound ledger.
    fn decode(words: &[u16]) -> Track {
        let mut track = Track::awake(Mode::of(words[0]), words[1]);
        for pair in words[PAIRS..PAIRS + 2 * usize::from(words[2])].chunks_exact(2) {
            track.install(Entry {
                code: pair[0],
                deviation: pair[1],
            });
        }
        track
    }

    /// Writes all the words of the track; unused pairs are zero.
    fn encode(&self, words: &mut [u16]) {
        words.fill(0);
        words[0] = self.mode.word();
        words[1] = self.state;
        words[2] = self.held() as u16;
        for (pair, entry) in words[PAIRS..].chunks_exact_mut(2).zip(&self.entries) {
            pair[0] = entry.code;
            pair[1] = entry.deviation;
        }
    }
}

/// A sound ledger, decoded at a call's limit.
#[derive(Clone, Debug, PartialEq, Eq)]
pub struct Ledger {
    /// The limit of the call; no word has it.
    pub limit: Limit,
    plan: [u16; PLAN_WORDS],
    /// The last accepted day; before the first one, the range's first.
    pub day: i32,
    pub tracks: Vec<Track>,
}

impl Ledger {
    /// The plan's own, with no accepted day and every track asleep.
    pub fn asleep(limit: Limit, plan: &Plan) -> Ledger {
        Ledger {
            limit,
            plan: plan_words(plan),
            day: Term::RANGE.first,
            tracks: vec![Track::ASLEEP; plan.track_count()],
        }
    }

    /// Decodes the words of the plan's own and sound ledger.
    pub fn decode(limit: Limit, plan: &Plan, words: &[u16]) -> Ledger {
        let own = |track| Track::decode(track_words(limit, words, track));
        Ledger {
            limit,
            plan: plan_words(plan),
            day: day_of(words),
            tracks: (0..plan.track_count()).map(own).collect(),
        }
    }

    /// Writes the words; those beyond stay as they are.
    pub fn encode(&self, words: &mut [u16]) {
        words[..PLAN_WORDS].copy_from_slice(&self.plan);
        words[PLAN_WORDS..LEADING_WORDS].copy_from_slice(&record::words_of(self.day));
        for (number, track) in self.tracks.iter().enumerate() {
            track.encode(track_words_mut(self.limit, words, number));
        }
    }

    /// The words alone, none beyond.
    pub fn words(&self) -> Vec<u16> {
        let mut words = vec![0; self.limit.track_start(self.tracks.len())];
        self.encode(&mut words);
        words
    }

    /// Over: all asleep.
    pub fn is_over(&self) -> bool {
        self.tracks.iter().all(|t| !t.is_awake())
    }

    /// A scope is open while its tracks are awake.
    pub fn is_open(&self, plan: &Plan, hosting: u16) -> bool {
        members(plan.scope(hosting))
            .next()
            .map_or(false, |t| self.tracks[t].is_awake())
    }

    /// Whether the track's state has its scope open.
    pub fn has_open_scope(&self, plan: &Plan, track: usize) -> bool {
        self.tracks[track].is_awake() && self.is_open(plan, self.tracks[track].state)
    }

    /// The entries held by all tracks together.
    pub fn total_held(&self) -> usize {
        self.tracks.iter().map(Track::held).sum()
    }
}

/// The words by which a plan's ledgers are known.
pub fn plan_words(plan: &Plan) -> [u16; PLAN_WORDS] {
    [plan.length(), plan.sum()]
}

/// Whether both are the plan's.
pub fn is_of(plan: &Plan, words: &[u16]) -> bool {
    words[..PLAN_WORDS] == plan_words(plan)
}

/// The last accepted day, as a ledger's words have it.
pub fn day_of(words: &[u16]) -> i32 {
    record::of_words([words[PLAN_WORDS], words[PLAN_WORDS + 1]])
}

/// The words that a plan's ledger needs.
pub fn words_needed(limit: Limit, plan: &Plan) -> usize {
    limit.track_start(plan.track_count())
}

/// The words of one track.
pub fn track_words(limit: Limit, words: &[u16], track: usize) -> &[u16] {
    &words[limit.track_start(track)..][..limit.track_words()]
}

/// The words of one track, to be written.
pub fn track_words_mut(limit: Limit, words: &mut [u16], track: usize) -> &mut [u16] {
    &mut words[limit.track_start(track)..][..limit.track_words()]
}

/// Finish: every root has ended, forward in a final state, or is spent, undoing
/// with nothing held and no open scope; and at least one has ended.
pub fn finishes(
    plan: &Plan,
    has_ended: impl Fn(usize) -> bool,
    is_spent: impl Fn(usize) -> bool,
) -> bool {
    plan.roots().all(|t| has_ended(t) || is_spent(t)) && plan.roots().any(has_ended)
}

/// The clauses that make a ledger sound. The first one is about the day, all
/// others about the tracks' words. The first five say that the words are as
/// described; the others bind only a ledger that is not all asleep.
#[derive(Clone, Copy, Debug, PartialEq, Eq)]
pub enum Clause {
    DayInRange,
    ModesKnown,
    CountsInRange,
    UnusedPairsZero,
    AsleepTracksZero,
    RootsAwake,
    StatesOwn,
    CodesNotZero,
    HostedHoldNoDeviation,
    DeviationsOwn,
    DeviationsNotFinal,
    ScopesWhole,
    HostsAwake,
    HostsInHostingState,
    ScopesInHostMode,
    NoClosingLeft,
    NoFinishLeft,
    NoAbandoningLeft,
}

impl Clause {
    pub const DESCRIBED: [Clause; 5] = [
        Clause::DayInRange,
        Clause::ModesKnown,
        Clause::CountsInRange,
        Clause::UnusedPairsZero,
        Clause::AsleepTracksZero,
    ];

    pub const AWAKE: [Clause; 13] = [
        Clause::RootsAwake,
        Clause::StatesOwn,
        Clause::CodesNotZero,
        Clause::HostedHoldNoDeviation,
        Clause::DeviationsOwn,
        Clause::DeviationsNotFinal,
        Clause::ScopesWhole,
        Clause::HostsAwake,
        Clause::HostsInHostingState,
        Clause::ScopesInHostMode,
        Clause::NoClosingLeft,
        Clause::NoFinishLeft,
        Clause::NoAbandoningLeft,
    ];

    pub const COUNT: usize = 18;

    /// All clauses, in the order of the enum.
    pub fn all() -> impl Iterator<Item = Clause> {
        Clause::DESCRIBED.into_iter().chain(Clause::AWAKE)
    }

    /// Whether the clause holds of the words.
    fn holds(self, view: &View) -> bool {
        match self {
            Clause::DayInRange => view.day_in_range(),
            Clause::ModesKnown => view.modes_known(),
            Clause::CountsInRange => view.counts_in_range(),
            Clause::UnusedPairsZero => view.unused_pairs_zero(),
            Clause::AsleepTracksZero => view.asleep_tracks_zero(),
            Clause::RootsAwake => view.roots_awake(),
            Clause::StatesOwn => view.states_own(),
            Clause::CodesNotZero => view.codes_not_zero(),
            Clause::HostedHoldNoDeviation => view.hosted_hold_no_deviation(),
            Clause::DeviationsOwn => view.deviations_own(),
            Clause::DeviationsNotFinal => view.deviations_not_final(),
            Clause::ScopesWhole => view.scopes_whole(),
            Clause::HostsAwake => view.hosts_awake(),
            Clause::HostsInHostingState => view.hosts_in_hosting_state(),
            Clause::ScopesInHostMode => view.scopes_in_host_mode(),
            Clause::NoClosingLeft => view.no_closing_left(),
            Clause::NoFinishLeft => view.no_finish_left(),
            Clause::NoAbandoningLeft => view.no_abandoning_left(),
        }
    }
}

/// Whether the ledger is sound under the plan and at the limit; it must have
/// enough words.
pub fn is_sound(limit: Limit, plan: &Plan, words: &[u16]) -> bool {
    let view = View { limit, plan, words };
    Clause::DESCRIBED.iter().all(|c| c.holds(&view))
        && (view.all_asleep() || Clause::AWAKE.iter().all(|c| c.holds(&view)))
}

/// The clauses that the words violate, in the order of the enum.
pub fn violated(limit: Limit, plan: &Plan, words: &[u16]) -> Vec<Clause> {
    let view = View { limit, plan, words };
    let over = view.all_asleep();
    let binding = |c: &Clause| !over || Clause::DESCRIBED.contains(c);
    Clause::all()
        .filter(binding)
        .filter(|c| !c.holds(&view))
        .collect()
}

/// Words read under a plan and at a limit, sound or not.
struct View<'a> {
    limit: Limit,
    plan: &'a Plan,
    words: &'a [u16],
}

impl<'a> View<'a> {
    /// All words of a track.
    fn own(&self, track: usize) -> &'a [u16] {
        track_words(self.limit, self.words, track)
    }

    fn mode(&self, track: usize) -> u16 {
        self.own(track)[0]
    }

    fn state(&self, track: usize) -> u16 {
        self.own(track)[1]
    }

    fn count(&self, track: usize) -> usize {
        usize::from(self.own(track)[2])
    }

    /// The track's pairs split into those held and those unused.
    fn pairs(&self, track: usize) -> (&'a [u16], &'a [u16]) {
        let held = self.count(track).min(self.limit.entries());
        self.own(track)[PAIRS..].split_at(2 * held)
    }

    /// Code and deviation of each entry held.
    fn entries(&self, track: usize) -> impl Iterator<Item = (u16, u16)> + 'a {
        self.pairs(track).0.chunks_exact(2).map(|p| (p[0], p[1]))
    }

    fn is_awake(&self, track: usize) -> bool {
        self.mode(track) != 0
    }

    fn is_forward(&self, track: usize) -> bool {
        self.mode(track) == 1
    }

    fn is_undoing(&self, track: usize) -> bool {
        self.mode(track) == 2
    }

    fn in_final_state(&self, track: usize) -> bool {
        self.plan.is_final(self.state(track))
    }

    fn tracks(&self) -> std::ops::Range<usize> {
        0..self.plan.track_count()
    }

    fn awake(&self) -> impl Iterator<Item = usize> + '_ {
        self.tracks().filter(|&t| self.is_awake(t))
    }

    /// Awake hosted tracks, each with the track that hosts it.
    fn awake_hosted(&self) -> impl Iterator<Item = (usize, usize)> + '_ {
        self.awake()
            .filter_map(|t| self.plan.host_track(t).map(|host| (t, host)))
    }

    /// Each scope, as its set of tracks.
    fn scopes(&self) -> impl Iterator<Item = u32> + '_ {
        self.plan.hosting_states().map(|s| self.plan.scope(s))
    }

    fn has_open_scope(&self, track: usize) -> bool {
        members(self.plan.scope(self.state(track))).any(|t| self.is_awake(t))
    }

    fn all_asleep(&self) -> bool {
        self.awake().next().is_none()
    }

    /// The last accepted day is of the range.
    fn day_in_range(&self) -> bool {
        Term::RANGE.contains(day_of(self.words))
    }

    /// Mode is 0 asleep, 1 forward or 2 undoing.
    fn modes_known(&self) -> bool {
        self.tracks().all(|t| self.mode(t) <= 2)
    }

    /// The count of entries held is 0 to the limit.
    fn counts_in_range(&self) -> bool {
        self.tracks().all(|t| self.count(t) <= self.limit.entries())
    }

    /// Unused pairs are zero.
    fn unused_pairs_zero(&self) -> bool {
        self.awake()
            .all(|t| self.pairs(t).1.iter().all(|&w| w == 0))
    }

    /// An asleep track is all zeros.
    fn asleep_tracks_zero(&self) -> bool {
        let zero = |t| self.own(t).iter().all(|&w| w == 0);
        self.tracks().all(|t| self.is_awake(t) || zero(t))
    }

    /// Every root is awake.
    fn roots_awake(&self) -> bool {
        self.plan.roots().all(|t| self.is_awake(t))
    }

    /// Every awake track's state is its own.
    fn states_own(&self) -> bool {
        self.awake().all(|t| self.plan.is_own(t, self.state(t)))
    }

    /// Codes held are not 0.
    fn codes_not_zero(&self) -> bool {
        self.awake()
            .all(|t| self.entries(t).all(|(code, _)| code != 0))
    }

    /// In a hosted track a deviation held is 65535.
    fn hosted_hold_no_deviation(&self) -> bool {
        self.awake_hosted()
            .all(|(t, _)| self.entries(t).all(|(_, deviation)| deviation == NONE))
    }

    /// Deviations other than 65535 that roots hold, each with its root.
    fn root_deviations(&self) -> impl Iterator<Item = (usize, u16)> + '_ {
        let held = |t| self.entries(t).map(move |(_, deviation)| (t, deviation));
        self.awake()
            .filter(|&t| self.plan.is_root(t))
            .flat_map(held)
            .filter(|&(_, deviation)| deviation != NONE)
    }

    /// In a root a deviation held is 65535 or a state of that root.
    fn deviations_own(&self) -> bool {
        self.root_deviations().all(|(t, d)| self.plan.is_own(t, d))
    }

    /// In a root no deviation held is final.
    fn deviations_not_final(&self) -> bool {
        self.root_deviations()
            .all(|(t, d)| !(self.plan.is_own(t, d) && self.plan.is_final(d)))
    }

    /// A scope is awake as a whole or asleep as a whole.
    fn scopes_whole(&self) -> bool {
        self.scopes().all(|scope| {
            members(scope).all(|t| self.is_awake(t)) || members(scope).all(|t| !self.is_awake(t))
        })
    }

    /// An awake scope's host is awake.
    fn hosts_awake(&self) -> bool {
        self.awake_hosted().all(|(_, host)| self.is_awake(host))
    }

    /// An awake scope's host, if awake, is in that hosting state.
    fn hosts_in_hosting_state(&self) -> bool {
        self.awake_hosted()
            .all(|(t, host)| !self.is_awake(host) || self.state(host) == self.plan.host(t))
    }

    /// An awake scope is in the mode of its host, if that is awake.
    fn scopes_in_host_mode(&self) -> bool {
        self.awake_hosted()
            .all(|(t, host)| !self.is_awake(host) || self.mode(host) == self.mode(t))
    }

    /// Forward in a final state.
    fn has_ended(&self, track: usize) -> bool {
        self.is_forward(track) && self.in_final_state(track)
    }

    /// Undoing, with nothing held and no open scope.
    fn is_spent(&self, track: usize) -> bool {
        self.is_undoing(track) && self.count(track) == 0 && !self.has_open_scope(track)
    }

    /// No open forward scope has its tracks all in final states.
    fn no_closing_left(&self) -> bool {
        let closes = |scope| members(scope).all(|t| self.has_ended(t));
        !self.scopes().any(closes)
    }

    /// The roots are not such that every track goes to sleep.
    fn no_finish_left(&self) -> bool {
        !finishes(self.plan, |t| self.has_ended(t), |t| self.is_spent(t))
    }

    /// No open scope's tracks are all undoing, hold nothing and have no open scope.
    fn no_abandoning_left(&self) -> bool {
        let abandoned = |scope| members(scope).all(|t| self.is_spent(t));
        !self.scopes().any(abandoned)
    }
}
