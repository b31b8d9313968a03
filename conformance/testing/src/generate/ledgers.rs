//! Sound ledgers at a limit, reached by histories or crafted, damaged ones, and
//! ones whose leading words are not the plan's.

use super::days;
use super::journals;
use super::rng::Rng;
use second::journal;
use second::ledger::{
    self, track_words, track_words_mut, words_needed, Clause, Entry, Ledger, Mode, Track,
    LEADING_WORDS, PAIRS, PLAN_WORDS,
};
use second::limit::Limit;
use second::plan::{members, Plan, NONE};
use second::record;
use second::rules;

/// A sound ledger.
pub fn sound(rng: &mut Rng, limit: Limit, plan: &Plan) -> Ledger {
    match rng.below(100) {
        0..=2 => asleep(rng, limit, plan),
        3..=5 => rules::begin(limit, plan),
        6..=45 => journals::history(rng, limit, plan).1,
        _ => crafted(rng, limit, plan),
    }
}

/// A ledger as begin leaves it, mostly worked by a part of a history, or over.
pub fn begun(rng: &mut Rng, limit: Limit, plan: &Plan) -> Ledger {
    match rng.below(100) {
        0..=14 => rules::begin(limit, plan),
        15..=24 => asleep(rng, limit, plan),
        _ => worked(rng, limit, plan),
    }
}

/// All asleep, on a day that is mostly near a window.
fn asleep(rng: &mut Rng, limit: Limit, plan: &Plan) -> Ledger {
    let mut ledger = Ledger::asleep(limit, plan);
    ledger.day = journals::day_near_windows(rng, plan);
    ledger
}

/// What some of the records of a history leave.
fn worked(rng: &mut Rng, limit: Limit, plan: &Plan) -> Ledger {
    let records = journals::history(rng, limit, plan).0;
    let done = rng.below(records.len() + 1);
    let mut ledger = rules::begin(limit, plan);
    for &record in &records[..done] {
        journal::perform(plan, &mut ledger, record);
    }
    ledger
}

/// A sound ledger put together by hand, mostly one no history reaches; where no
/// entry may be held, one of a history.
pub fn crafted(rng: &mut Rng, limit: Limit, plan: &Plan) -> Ledger {
    if limit.entries() == 0 {
        return worked(rng, limit, plan);
    }
    let mut ledger = asleep(rng, limit, plan);
    let mode = any_mode(rng);
    for root in plan.roots() {
        let mode = if rng.chance(75) { mode } else { any_mode(rng) };
        rouse(rng, plan, &mut ledger, root, mode);
    }
    repair(rng, plan, &mut ledger);
    ledger
}

/// A sound ledger that is often one call away from finish: all roots ended
/// or spent but for one, which has an event to come, an entry or an open
/// scope; or all roots spent. Where no entry may be held, any of a history.
pub fn near_finish(rng: &mut Rng, limit: Limit, plan: &Plan) -> Ledger {
    if limit.entries() == 0 {
        return worked(rng, limit, plan);
    }
    let mut ledger = half_withdrawn(rng, limit, plan);
    let roots: Vec<usize> = plan.roots().collect();
    let root = rng.pick(&roots).unwrap_or(0);
    match rng.below(100) {
        0..=32 => before_end(rng, plan, &mut ledger, root),
        33..=54 => hold(rng, plan, &mut ledger, root),
        55..=89 => {
            let hosts = |t: &usize| plan.states_of(*t).any(|s| plan.scope(s) != 0);
            let hosts: Vec<usize> = roots.iter().copied().filter(hosts).collect();
            let root = rng.pick(&hosts).unwrap_or(root);
            hold_inside(rng, plan, &mut ledger, root)
        }
        _ => {
            for &root in &roots {
                ledger.tracks[root] = spent(rng, plan, root);
            }
        }
    }
    repair(rng, plan, &mut ledger);
    ledger
}

/// A sound ledger whose awake tracks mostly hold as many entries as the limit
/// allows, or one fewer.
pub fn brimming(rng: &mut Rng, limit: Limit, plan: &Plan) -> Ledger {
    let mut ledger = sound(rng, limit, plan);
    for track in 0..plan.track_count() {
        if !ledger.tracks[track].is_awake() || rng.chance(20) {
            continue;
        }
        let deviations = deviations(plan, track);
        let most = limit.entries().saturating_sub(rng.below(2));
        while ledger.tracks[track].held() < most {
            ledger.tracks[track].install(any_entry(rng, &deviations));
        }
    }
    ledger
}

/// Every root ended or spent, and no scope open: mostly finish is left to do.
fn half_withdrawn(rng: &mut Rng, limit: Limit, plan: &Plan) -> Ledger {
    let mut ledger = asleep(rng, limit, plan);
    let percent = rng.pick(&[30, 60, 90]).unwrap_or(0);
    for root in plan.roots() {
        let last = final_state(rng, plan, root).filter(|_| rng.chance(percent));
        match last {
            Some(state) => {
                ledger.tracks[root] = Track::awake(Mode::Forward, state);
                fill(rng, plan, &mut ledger, root);
            }
            None => ledger.tracks[root] = spent(rng, plan, root),
        }
    }
    ledger
}

/// Undoing in any state of the track, with nothing held.
fn spent(rng: &mut Rng, plan: &Plan, track: usize) -> Track {
    let own: Vec<u16> = plan.states_of(track).collect();
    Track::awake(Mode::Undoing, rng.pick(&own).unwrap_or(0))
}

/// The track forward in a state that a transition leads from to a final one, if
/// there is such a state, else in the first; now and then full.
fn before_end(rng: &mut Rng, plan: &Plan, ledger: &mut Ledger, track: usize) {
    let ends = |s: &u16| {
        let mut exits = plan.transitions_from(*s);
        exits.any(|(x, _)| plan.is_final(x.destination))
    };
    let before: Vec<u16> = plan.states_of(track).filter(ends).collect();
    let state = rng.pick(&before);
    let state = state.unwrap_or_else(|| plan.first_state(track));
    ledger.tracks[track] = Track::awake(Mode::Forward, state);
    let deviations = deviations(plan, track);
    let most = ledger.limit.entries();
    let held = rng.pick(&[0, 1, most]).unwrap_or(0);
    for _ in 0..held.min(most) {
        ledger.tracks[track].install(any_entry(rng, &deviations));
    }
}

/// The track undoing with an entry or two, now and then with deviations.
fn hold(rng: &mut Rng, plan: &Plan, ledger: &mut Ledger, track: usize) {
    ledger.tracks[track] = spent(rng, plan, track);
    let deviations = deviations(plan, track);
    let held = rng.pick(&[1, 1, 1, 2]).unwrap_or(1);
    for _ in 0..held.min(ledger.limit.entries()) {
        ledger.tracks[track].install(any_entry(rng, &deviations));
    }
}

/// The track undoing with its scope open and an entry inside that scope, and
/// now and then one of its own; without a scope, as `hold` has it.
fn hold_inside(rng: &mut Rng, plan: &Plan, ledger: &mut Ledger, track: usize) {
    let own = plan.states_of(track);
    let hosting: Vec<u16> = own.filter(|&s| plan.scope(s) != 0).collect();
    let state = match rng.pick(&hosting) {
        Some(state) => state,
        None => return hold(rng, plan, ledger, track),
    };
    ledger.tracks[track] = Track::awake(Mode::Undoing, state);
    if rng.chance(15) {
        ledger.tracks[track].install(any_entry(rng, &[]));
    }
    for hosted in members(plan.scope(state)) {
        ledger.tracks[hosted] = spent(rng, plan, hosted);
    }
    let inner = any_member(rng, plan.scope(state));
    hold_inside(rng, plan, ledger, inner);
}

fn any_mode(rng: &mut Rng) -> Mode {
    if rng.chance(60) {
        Mode::Forward
    } else {
        Mode::Undoing
    }
}

/// Wakes a track in any of its states, and mostly that state's scope.
fn rouse(rng: &mut Rng, plan: &Plan, ledger: &mut Ledger, track: usize, mode: Mode) {
    let own: Vec<u16> = plan.states_of(track).collect();
    let hosting: Vec<u16> = own
        .iter()
        .copied()
        .filter(|&s| plan.scope(s) != 0)
        .collect();
    let host = rng.pick(&hosting).filter(|_| rng.chance(60));
    let state = host.or_else(|| rng.pick(&own)).unwrap_or(0);
    ledger.tracks[track] = Track::awake(mode, state);
    fill(rng, plan, ledger, track);
    if rng.chance(75) {
        for hosted in members(plan.scope(state)) {
            rouse(rng, plan, ledger, hosted, mode);
        }
    }
}

/// Gives a track entries: none, some, all but one, or as many as the limit.
fn fill(rng: &mut Rng, plan: &Plan, ledger: &mut Ledger, track: usize) {
    let most = ledger.limit.entries();
    let held = match rng.below(100) {
        0..=34 => 0,
        35..=64 => rng.between(1, 3),
        65..=74 => rng.below(most + 1),
        75..=79 => most.saturating_sub(1),
        _ => most,
    };
    let deviations = deviations(plan, track);
    for _ in 0..held.min(most) {
        ledger.tracks[track].install(any_entry(rng, &deviations));
    }
}

/// The deviations, other than 65535, that the track may hold.
fn deviations(plan: &Plan, track: usize) -> Vec<u16> {
    if !plan.is_root(track) {
        return Vec::new();
    }
    let open = plan.states_of(track).filter(|&s| !plan.is_final(s));
    open.collect()
}

/// An entry with one of the deviations, or none.
fn any_entry(rng: &mut Rng, deviations: &[u16]) -> Entry {
    let deviation = rng.pick(deviations).filter(|_| rng.chance(30));
    Entry {
        code: rng.code(),
        deviation: deviation.unwrap_or(NONE),
    }
}

/// Takes away every settling left to do.
fn repair(rng: &mut Rng, plan: &Plan, ledger: &mut Ledger) {
    let scopes: Vec<u32> = plan.hosting_states().map(|s| plan.scope(s)).collect();
    for &scope in &scopes {
        keep_from_closing(rng, plan, ledger, scope);
        keep_from_abandoning(rng, plan, ledger, scope);
    }
    keep_from_finishing(rng, plan, ledger);
}

/// Moves one track back to its first state where all are in final states.
fn keep_from_closing(rng: &mut Rng, plan: &Plan, ledger: &mut Ledger, scope: u32) {
    if members(scope).all(|t| rules::has_ended(plan, ledger, t)) {
        let track = any_member(rng, scope);
        ledger.tracks[track].state = plan.first_state(track);
    }
}

/// Where all roots have ended or are spent and some root has ended: gives one
/// that is spent an entry, or moves one that has ended back to its first state.
fn keep_from_finishing(rng: &mut Rng, plan: &Plan, ledger: &mut Ledger) {
    let (ended, others): (Vec<usize>, Vec<usize>) = plan
        .roots()
        .partition(|&t| rules::has_ended(plan, ledger, t));
    let is_spent = |&t: &usize| rules::is_spent(plan, ledger, t);
    if ended.is_empty() || !others.iter().all(is_spent) {
        return;
    }
    match rng.pick(&others).filter(|_| rng.chance(60)) {
        Some(root) => hold(rng, plan, ledger, root),
        None => {
            let root = rng.pick(&ended).unwrap_or(0);
            ledger.tracks[root].state = plan.first_state(root);
        }
    }
}

/// Gives one track an entry where all are spent.
fn keep_from_abandoning(rng: &mut Rng, plan: &Plan, ledger: &mut Ledger, scope: u32) {
    if members(scope).all(|t| rules::is_spent(plan, ledger, t)) {
        let track = any_member(rng, scope);
        ledger.tracks[track].install(any_entry(rng, &[]));
    }
}

fn any_member(rng: &mut Rng, tracks: u32) -> usize {
    let at = rng.below(tracks.count_ones() as usize);
    members(tracks).nth(at).unwrap_or(0)
}

/// The words of a ledger, mostly with some words beyond.
pub fn lend(rng: &mut Rng, ledger: &Ledger) -> Vec<u16> {
    let mut words = ledger.words();
    if rng.chance(60) {
        let beyond = rng.between(1, 5);
        words.extend((0..beyond).map(|_| rng.word()));
    }
    words
}

/// Garbage words, a few more than the plan needs.
pub fn garbage(rng: &mut Rng, limit: Limit, plan: &Plan) -> Vec<u16> {
    let count = words_needed(limit, plan) + rng.between(1, 5);
    (0..count).map(|_| rng.word()).collect()
}

/// A sound ledger damaged so that exactly one clause is violated, if the
/// plan and the ledger allow it.
pub fn violate(rng: &mut Rng, limit: Limit, plan: &Plan, clause: Clause) -> Option<Vec<u16>> {
    let sound = if clause == Clause::DayInRange && rng.chance(40) {
        asleep(rng, limit, plan)
    } else if rng.chance(25) {
        journals::history(rng, limit, plan).1
    } else {
        crafted(rng, limit, plan)
    };
    let mut words = lend(rng, &sound);
    damage(rng, (limit, plan), &mut words, clause);
    (ledger::violated(limit, plan, &words) == [clause]).then_some(words)
}

/// Random words changed, so that most often the ledger is not sound.
pub fn flip(rng: &mut Rng, limit: Limit, plan: &Plan, words: &mut [u16]) {
    for _ in 0..rng.between(1, 3) {
        if rng.chance(12) {
            let at = rng.between(PLAN_WORDS, LEADING_WORDS - 1);
            words[at] = flipped(rng, words[at]);
        } else {
            let own = track_words_mut(limit, words, rng.below(plan.track_count()));
            let at = word_in_track(rng, own);
            own[at] = flipped(rng, own[at]);
        }
    }
}

fn flipped(rng: &mut Rng, word: u16) -> u16 {
    match rng.below(5) {
        0 => word ^ (1 << rng.below(16)),
        1 => word.wrapping_add(1),
        2 => word.wrapping_sub(1),
        3 => rng.below(4) as u16,
        _ => rng.word(),
    }
}

/// Another length, another sum, both other, or zeros alone.
pub fn mislead(rng: &mut Rng, words: &mut [u16]) {
    match rng.below(100) {
        0..=34 => words[0] = other_word(rng, words[0]),
        35..=69 => words[1] = other_word(rng, words[1]),
        70..=79 => words[..PLAN_WORDS].reverse(),
        80..=89 => {
            words[0] = other_word(rng, words[0]);
            words[1] = other_word(rng, words[1]);
        }
        _ => words.fill(0),
    }
}

/// A word that is not this one, often a near one.
fn other_word(rng: &mut Rng, word: u16) -> u16 {
    let other = match rng.below(6) {
        0 => word.wrapping_add(2),
        1 => word.wrapping_sub(2),
        2 => word ^ (1 << rng.below(16)),
        3 => word.swap_bytes(),
        4 => 0,
        _ => rng.word(),
    };
    if other == word {
        word.wrapping_add(1)
    } else {
        other
    }
}

/// Mode, state, count, a pair near the newest entry, or any word.
fn word_in_track(rng: &mut Rng, own: &[u16]) -> usize {
    let newest = PAIRS + 2 * usize::from(own[2]) + rng.below(2);
    match rng.below(5) {
        0..=2 => rng.below(PAIRS),
        3 => newest.min(own.len() - 1),
        _ => rng.below(own.len()),
    }
}

/// Damages one clause, where it can.
fn damage(rng: &mut Rng, read: (Limit, &Plan), words: &mut [u16], clause: Clause) {
    let (limit, plan) = read;
    let track = any_track(rng, read, words, clause);
    let own = track_words_mut(limit, words, track);
    match clause {
        Clause::DayInRange => {
            let day = record::words_of(days::outside(rng));
            words[PLAN_WORDS..LEADING_WORDS].copy_from_slice(&day);
        }
        Clause::ModesKnown => own[0] = rng.word().max(3),
        Clause::CountsInRange => overcount(rng, limit, own),
        Clause::UnusedPairsZero => soil_unused(rng, limit, own),
        Clause::AsleepTracksZero => own[rng.between(1, own.len() - 1)] = rng.word().max(1),
        Clause::RootsAwake => own.fill(0),
        Clause::StatesOwn => own[1] = foreign_state(rng, plan, track),
        Clause::CodesNotZero => set_pair(rng, own, Some(0), None),
        Clause::HostedHoldNoDeviation => {
            let any = rng.pick(&[0, own[1], 65534]);
            set_pair(rng, own, None, any)
        }
        Clause::DeviationsOwn => {
            let foreign = foreign_state(rng, plan, track);
            set_pair(rng, own, None, Some(foreign))
        }
        Clause::DeviationsNotFinal => {
            let last = final_state(rng, plan, track);
            set_pair(rng, own, None, last)
        }
        Clause::ScopesWhole => own.fill(0),
        Clause::HostsAwake => sleep_middle(rng, read, words),
        Clause::HostsInHostingState => own[1] = other_state(rng, plan, track, own[1]),
        Clause::ScopesInHostMode => own[0] = if own[0] == 1 { 2 } else { 1 },
        Clause::NoClosingLeft => to_final(rng, read, words, |p, t| !p.is_root(t)),
        Clause::NoFinishLeft if rng.chance(60) => half_withdrawn(rng, limit, plan).encode(words),
        Clause::NoFinishLeft => to_final(rng, read, words, Plan::is_root),
        Clause::NoAbandoningLeft => spend(rng, read, words),
    }
}

/// A track that the damage can strike: asleep, root, hosted or any awake one.
fn any_track(rng: &mut Rng, read: (Limit, &Plan), words: &[u16], clause: Clause) -> usize {
    let (limit, plan) = read;
    let awake = |t: usize| track_words(limit, words, t)[0] != 0;
    let fits = |&t: &usize| match clause {
        Clause::AsleepTracksZero => !awake(t),
        Clause::RootsAwake | Clause::DeviationsOwn | Clause::DeviationsNotFinal => plan.is_root(t),
        Clause::HostedHoldNoDeviation | Clause::ScopesWhole => awake(t) && !plan.is_root(t),
        _ => awake(t),
    };
    let fitting: Vec<usize> = (0..plan.track_count()).filter(fits).collect();
    rng.pick(&fitting).unwrap_or(0)
}

/// A count above the limit, all pairs being held.
fn overcount(rng: &mut Rng, limit: Limit, own: &mut [u16]) {
    let next = limit.0 + 1;
    let counts = [next, next, next + 1, 2 * limit.0, 32, 33, 64, 65535];
    let count = rng.pick(&counts).filter(|&count| count > limit.0);
    own[2] = count.unwrap_or(next);
    for pair in own[PAIRS..].chunks_exact_mut(2).filter(|p| p[0] == 0) {
        pair.copy_from_slice(&[1, NONE]);
    }
}

/// Writes into a pair not held, most often the next one.
fn soil_unused(rng: &mut Rng, limit: Limit, own: &mut [u16]) {
    let held = usize::from(own[2]);
    if held < limit.entries() {
        let pair = if rng.chance(50) {
            held
        } else {
            rng.between(held, limit.entries() - 1)
        };
        own[PAIRS + 2 * pair + rng.below(2)] = rng.pick(&[1, 50, NONE]).unwrap_or(1);
    }
}

/// Changes code or deviation of an entry held.
fn set_pair(rng: &mut Rng, own: &mut [u16], code: Option<u16>, deviation: Option<u16>) {
    let held = usize::from(own[2]);
    if held > 0 {
        let at = PAIRS + 2 * rng.below(held);
        own[at] = code.unwrap_or(own[at]);
        own[at + 1] = deviation.unwrap_or(own[at + 1]);
    }
}

/// A state of another track, or of none; not 65535.
fn foreign_state(rng: &mut Rng, plan: &Plan, track: usize) -> u16 {
    let foreign: Vec<u16> = plan
        .state_numbers()
        .filter(|&s| plan.track_of(s) != track)
        .collect();
    let nowhere = rng.pick(&[plan.state_count() as u16, 128, 65534]);
    let foreign = rng.pick(&foreign).filter(|_| rng.chance(60));
    foreign.or(nowhere).unwrap_or(65534)
}

fn final_state(rng: &mut Rng, plan: &Plan, track: usize) -> Option<u16> {
    let finals: Vec<u16> = plan
        .states_of(track)
        .filter(|&s| plan.is_final(s))
        .collect();
    rng.pick(&finals)
}

fn other_state(rng: &mut Rng, plan: &Plan, track: usize, state: u16) -> u16 {
    let others: Vec<u16> = plan.states_of(track).filter(|&s| s != state).collect();
    rng.pick(&others).unwrap_or(state)
}

/// Puts a scope to sleep whose tracks have scopes open.
fn sleep_middle(rng: &mut Rng, (limit, plan): (Limit, &Plan), words: &mut [u16]) {
    let hosting: Vec<u16> = plan.hosting_states().collect();
    if let Some(state) = rng.pick(&hosting) {
        for track in members(plan.scope(state)) {
            track_words_mut(limit, words, track).fill(0);
        }
    }
}

/// Puts awake tracks of the wanted sort into final states, closing nothing.
fn to_final(
    rng: &mut Rng,
    (limit, plan): (Limit, &Plan),
    words: &mut [u16],
    wanted: fn(&Plan, usize) -> bool,
) {
    let hosting: Vec<u16> = plan.hosting_states().collect();
    let scope = rng.pick(&hosting).map_or(0, |s| plan.scope(s));
    for track in 0..plan.track_count() {
        let chosen = plan.is_root(track) || scope & (1 << track) != 0;
        if chosen && wanted(plan, track) {
            if let Some(last) = final_state(rng, plan, track) {
                let own = track_words_mut(limit, words, track);
                own[1] = last;
            }
        }
    }
}

/// Takes all entries from the tracks of a scope.
fn spend(rng: &mut Rng, (limit, plan): (Limit, &Plan), words: &mut [u16]) {
    let hosting: Vec<u16> = plan.hosting_states().collect();
    let scope = rng.pick(&hosting).map_or(0, |s| plan.scope(s));
    for track in members(scope) {
        track_words_mut(limit, words, track)[2..].fill(0);
    }
}
