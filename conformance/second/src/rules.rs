//! The rules of the compensating automaton, on an accepted plan and a sound
//! ledger. A refused call changes nothing. Finish follows every event, signal
//! and firing, as their last settling. Each of these three is a society's, and
//! touches only the tracks for which it has the right.

use crate::days::Term;
use crate::ledger::{self, Entry, Ledger, Mode, Track};
use crate::limit::Limit;
use crate::plan::{members, Plan, Right, Transition, NONE};
use crate::refusal::{demand, Refusal};

/// Event's figures: tracks moved, scopes closed.
#[derive(Clone, Copy, Debug, PartialEq, Eq)]
pub struct Moved {
    pub moved: u16,
    pub closed: u16,
}

/// Begin: roots forward in their first states, others asleep, and the range's
/// first day as the last accepted one.
pub fn begin(limit: Limit, plan: &Plan) -> Ledger {
    let mut ledger = Ledger::asleep(limit, plan);
    for root in plan.roots() {
        wake(plan, &mut ledger, root);
    }
    ledger
}

/// Wakes a track forward in its first state, holding nothing.
fn wake(plan: &Plan, ledger: &mut Ledger, track: usize) {
    let first = plan.first_state(track);
    ledger.tracks[track] = Track::awake(Mode::Forward, first);
    open_scope(plan, ledger, first);
}

/// Opens the scope of a state just entered, if it hosts.
fn open_scope(plan: &Plan, ledger: &mut Ledger, state: u16) {
    for track in members(plan.scope(state)) {
        wake(plan, ledger, track);
    }
}

/// Event: the chosen moves, then closing, then finish. Its day is the last
/// accepted one from now on, even where none moves.
pub fn event(
    plan: &Plan,
    ledger: &mut Ledger,
    event: u16,
    day: i32,
    society: u16,
) -> Result<Moved, Refusal> {
    demand(event != 0, Refusal::EventZero)?;
    let follows = Term::RANGE.contains(day) && day >= ledger.day;
    demand(follows, Refusal::Day)?;
    demand(!ledger.is_over(), Refusal::Over)?;
    let entitled = plan.allows_somewhere(society, Right::Move);
    demand(entitled, Refusal::NoRight)?;
    let moves = chosen_moves(plan, ledger, event, day, society);
    let mut after = ledger.clone();
    after.day = day;
    for &(track, transition) in &moves {
        take(plan, &mut after, track, transition)?;
    }
    let closed = close(plan, &mut after)?;
    finish(plan, &mut after);
    *ledger = after;
    Ok(Moved {
        moved: moves.len() as u16,
        closed,
    })
}

/// The moves a society's event makes on a day, each track with its transition.
pub fn chosen_moves<'p>(
    plan: &'p Plan,
    ledger: &Ledger,
    event: u16,
    day: i32,
    society: u16,
) -> Vec<(usize, &'p Transition)> {
    let mut moves = possible_moves(plan, ledger, event, day);
    moves.retain(|&(t, _)| plan.allows(society, Right::Move, t));
    moves
}

/// The same with rights left aside.
pub fn possible_moves<'p>(
    plan: &'p Plan,
    ledger: &Ledger,
    event: u16,
    day: i32,
) -> Vec<(usize, &'p Transition)> {
    let chosen = |t: usize| {
        let (transition, term) = plan.transition(ledger.tracks[t].state, event)?;
        let moves = may_move(plan, ledger, t) && term.contains(day);
        moves.then_some((t, transition))
    };
    (0..plan.track_count()).filter_map(chosen).collect()
}

/// Forward and without an open scope.
pub fn may_move(plan: &Plan, ledger: &Ledger, track: usize) -> bool {
    ledger.tracks[track].mode == Mode::Forward && !ledger.has_open_scope(plan, track)
}

/// One move: installs its entry and enters the destination.
fn take(plan: &Plan, ledger: &mut Ledger, track: usize, x: &Transition) -> Result<(), Refusal> {
    install(ledger, track, x.code, x.deviation)?;
    ledger.tracks[track].state = x.destination;
    open_scope(plan, ledger, x.destination);
    Ok(())
}

/// Installs a code other than 0; 21 where the track holds as many as the limit.
fn install(ledger: &mut Ledger, track: usize, code: u16, deviation: u16) -> Result<(), Refusal> {
    if code == 0 {
        return Ok(());
    }
    demand(!ledger.tracks[track].is_full(ledger.limit), Refusal::Full)?;
    ledger.tracks[track].install(Entry { code, deviation });
    Ok(())
}

/// Closing, until nothing is left to close. Answers the scopes closed.
fn close(plan: &Plan, ledger: &mut Ledger) -> Result<u16, Refusal> {
    let mut closed = 0;
    while let Some(hosting) = plan.hosting_states().find(|&s| closes(plan, ledger, s)) {
        sleep(ledger, plan.scope(hosting));
        let host = plan.track_of(hosting);
        install(ledger, host, plan.replacement(hosting), NONE)?;
        closed += 1;
    }
    Ok(closed)
}

/// An open forward scope whose tracks are all in final states.
fn closes(plan: &Plan, ledger: &Ledger, hosting: u16) -> bool {
    members(plan.scope(hosting)).all(|t| has_ended(plan, ledger, t))
}

/// Forward in a final state.
pub fn has_ended(plan: &Plan, ledger: &Ledger, track: usize) -> bool {
    let track = &ledger.tracks[track];
    track.mode == Mode::Forward && plan.is_final(track.state)
}

/// Undoing, with nothing held and no open scope.
pub fn is_spent(plan: &Plan, ledger: &Ledger, track: usize) -> bool {
    ledger.tracks[track].mode == Mode::Undoing
        && ledger.tracks[track].held() == 0
        && !ledger.has_open_scope(plan, track)
}

/// Finish: every root ended or spent, at least one ended, puts every track to
/// sleep.
fn finish(plan: &Plan, ledger: &mut Ledger) {
    let done = ledger::finishes(
        plan,
        |t| has_ended(plan, ledger, t),
        |t| is_spent(plan, ledger, t),
    );
    if done {
        ledger.tracks.fill(Track::ASLEEP);
    }
}

/// Puts the tracks of a scope to sleep; their entries are dropped.
fn sleep(ledger: &mut Ledger, scope: u32) {
    for track in members(scope) {
        ledger.tracks[track] = Track::ASLEEP;
    }
}

/// Signal: every forward track that the society may turn does so; then
/// abandoning and finish, which comes where a root that it may not turn has
/// ended. Answers how many turned.
pub fn signal(plan: &Plan, ledger: &mut Ledger, society: u16) -> Result<u16, Refusal> {
    demand(!ledger.is_over(), Refusal::Over)?;
    let entitled = plan.allows_somewhere(society, Right::Signal);
    demand(entitled, Refusal::NoRight)?;
    let mut turned = 0;
    for (t, track) in ledger.tracks.iter_mut().enumerate() {
        if track.mode == Mode::Forward && plan.allows(society, Right::Signal, t) {
            track.mode = Mode::Undoing;
            turned += 1;
        }
    }
    abandon(plan, ledger);
    finish(plan, ledger);
    Ok(turned)
}

/// Abandoning, until nothing changes.
fn abandon(plan: &Plan, ledger: &mut Ledger) {
    while let Some(hosting) = plan.hosting_states().find(|&s| lapses(plan, ledger, s)) {
        sleep(ledger, plan.scope(hosting));
    }
}

/// A scope whose tracks are all undoing, hold nothing and have no open scope.
fn lapses(plan: &Plan, ledger: &Ledger, hosting: u16) -> bool {
    members(plan.scope(hosting)).all(|t| is_spent(plan, ledger, t))
}

/// Fire: the newest entry is removed; a deviation turns the track forward;
/// then abandoning, then finish. Answers the entry.
pub fn fire(plan: &Plan, ledger: &mut Ledger, track: u16, society: u16) -> Result<Entry, Refusal> {
    demand(!ledger.is_over(), Refusal::Over)?;
    let track = usize::from(track);
    let exists = track < plan.track_count();
    let entitled = !exists || plan.allows(society, Right::Fire, track);
    demand(entitled, Refusal::NoRight)?;
    fire_freely(plan, ledger, track)
}

/// The same with rights left aside; none of an over ledger may be fired.
pub fn fire_freely(plan: &Plan, ledger: &mut Ledger, track: usize) -> Result<Entry, Refusal> {
    demand(may_fire(plan, ledger, track), Refusal::NotReady)?;
    let entry = ledger.tracks[track].remove().ok_or(Refusal::NotReady)?;
    if entry.deviation != NONE {
        deviate(plan, ledger, track, entry.deviation);
    }
    abandon(plan, ledger);
    finish(plan, ledger);
    Ok(entry)
}

/// The track goes forward in the deviation state, entering it.
fn deviate(plan: &Plan, ledger: &mut Ledger, track: usize, state: u16) {
    ledger.tracks[track].mode = Mode::Forward;
    ledger.tracks[track].state = state;
    open_scope(plan, ledger, state);
}

/// Exists, undoing, holds an entry and has no open scope.
pub fn may_fire(plan: &Plan, ledger: &Ledger, track: usize) -> bool {
    track < plan.track_count()
        && ledger.tracks[track].mode == Mode::Undoing
        && ledger.tracks[track].held() > 0
        && !ledger.has_open_scope(plan, track)
}

/// Ready: bit n set exactly if track n may be fired, rights left aside.
pub fn ready(plan: &Plan, ledger: &Ledger) -> u32 {
    (0..plan.track_count())
        .filter(|&t| may_fire(plan, ledger, t))
        .fold(0, |bits, t| bits | 1 << t)
}

/// The lowest ready track that the society may fire.
pub fn lowest_ready(plan: &Plan, ledger: &Ledger, society: u16) -> Option<usize> {
    members(ready(plan, ledger)).find(|&t| plan.allows(society, Right::Fire, t))
}
