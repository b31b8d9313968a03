//! Histories whose last record is a signal, most often one that leaves no track
//! forward, under plans where each right over each root is somebody's. Many of
//! the plans have no deviation, many are shared by several societies. Small ones
//! with a ledger of theirs, and lists of tracks to be fired from it.

use super::journals;
use super::ledgers;
use super::paths;
use super::plans;
use super::rng::Rng;
use super::societies;
use crate::samples::{state, step, track};
use second::journal::{self, Record};
use second::ledger::{Ledger, Mode};
use second::limit::Limit;
use second::plan::{self, members, Plan, Records, Right, Rights, MAX_RIGHTS, MAX_TRACKS, NONE};
use second::rules;

/// A plan, and a history from its begin at a limit, whose last record is a signal.
pub struct Withdrawal {
    pub plan: Vec<u8>,
    pub records: Vec<Record>,
}

pub fn withdrawal(rng: &mut Rng, limit: Limit) -> Withdrawal {
    let records = records(rng);
    withdrawal_of(rng, limit, &records)
}

fn withdrawal_of(rng: &mut Rng, limit: Limit, records: &Records) -> Withdrawal {
    let bytes = records.encode();
    let plan = plan::read(&bytes).expect("a good plan is accepted");
    let mut ledger = rules::begin(limit, &plan);
    let mut records = history(rng, &plan, &mut ledger);
    records.extend(signals(rng, &plan, &mut ledger));
    Withdrawal {
        plan: bytes,
        records,
    }
}

/// The records of a plan on which somebody has each right over each root.
pub fn records(rng: &mut Rng) -> Records {
    let mut plan = match rng.below(100) {
        0..=34 => plans::records(rng, MAX_TRACKS),
        35..=69 => plans::linked_records(rng, MAX_TRACKS),
        _ => paths::bounded(rng),
    };
    share_out(rng, &mut plan);
    plan
}

/// Takes the deviations of many plans away, and gives each right to somebody.
fn share_out(rng: &mut Rng, plan: &mut Records) {
    if rng.chance(50) {
        plan.transitions.iter_mut().for_each(|x| x.deviation = NONE);
    }
    if rng.chance(50) {
        plan.rights = societies::rights(rng, &plan.tracks, 20);
    }
    give_missing_rights(rng, plan);
}

/// A small plan and a sound ledger: one of a withdrawal, before its last signal
/// or after it, or any, of a plan that may leave rights to nobody.
pub fn small(rng: &mut Rng, limit: Limit, most_tracks: usize) -> (Vec<u8>, Ledger) {
    let mut records = match rng.below(100) {
        0..=29 if most_tracks > 1 => nested(rng, most_tracks),
        30..=69 => plans::small_linked_records(rng, most_tracks),
        _ => plans::records(rng, most_tracks),
    };
    if rng.chance(25) {
        let bytes = records.encode();
        let plan = plan::read(&bytes).expect("a good plan is accepted");
        let ledger = ledgers::sound(rng, limit, &plan);
        return (bytes, ledger);
    }
    share_out(rng, &mut records);
    let Withdrawal { plan, records } = withdrawal_of(rng, limit, &records);
    let ledger = ledger_of(rng, limit, &plan, &records);
    (plan, ledger)
}

/// The records of a plan with one root: event 1 takes it to a state that hosts
/// one branch or two, the second now and then inside the first, and event 2 on.
fn nested(rng: &mut Rng, most_tracks: usize) -> Records {
    let mut plan = Records {
        tracks: vec![track(NONE)],
        states: vec![state(0, 0, 0), state(0, 0, rng.code()), state(0, 1, 0)],
        transitions: vec![step(0, 1, rng.code(), 1), step(1, 2, rng.code(), 2)],
        windows: vec![],
        rights: vec![],
    };
    let branches = rng.between(1, 2).min(most_tracks - 1);
    for number in 1..=branches {
        let inside = number == 2 && rng.chance(30);
        add_branch(rng, &mut plan, if inside { 3 } else { 1 });
    }
    plan
}

/// Adds a branch of one step or two, most often without an end.
fn add_branch(rng: &mut Rng, plan: &mut Records, host: u16) {
    let (number, first) = (plan.tracks.len() as u16, plan.states.len() as u16);
    let steps = rng.between(1, 2) as u16;
    plan.tracks.push(track(host));
    plan.states.push(state(number, 0, 0));
    for source in first..first + steps {
        let last = source + 1 == first + steps && rng.chance(30);
        plan.states.push(state(number, u16::from(last), 0));
        let event = rng.between(3, 5) as u16;
        plan.transitions
            .push(step(source, event, rng.code(), source + 1));
    }
}

/// The ledger before the last signal, after it, or after some firings more.
fn ledger_of(rng: &mut Rng, limit: Limit, bytes: &[u8], records: &[Record]) -> Ledger {
    let plan = plan::read(bytes).expect("a good plan is accepted");
    let before = usize::from(rng.chance(25));
    let mut ledger = rules::begin(limit, &plan);
    for &record in &records[..records.len() - before] {
        journal::perform(&plan, &mut ledger, record);
    }
    if rng.chance(30) {
        let most = rng.between(1, 3);
        fire_some(rng, &plan, &mut ledger, most);
    }
    ledger
}

/// Fires ready tracks, rights aside, until none is ready or so many are fired.
/// Answers the tracks.
fn fire_some(rng: &mut Rng, plan: &Plan, ledger: &mut Ledger, most: usize) -> Vec<u16> {
    let mut tracks = Vec::new();
    while tracks.len() < most {
        let ready: Vec<usize> = members(rules::ready(plan, ledger)).collect();
        let track = match rng.pick(&ready) {
            Some(track) => track,
            None => break,
        };
        rules::fire_freely(plan, ledger, track).expect("a ready track is fired");
        tracks.push(track as u16);
    }
    tracks
}

/// Tracks to be fired one after the other: an order that goes on until none is
/// ready, one that stops before, or one with a track that may not be fired then.
pub fn order(rng: &mut Rng, plan: &Plan, ledger: &Ledger) -> Vec<u16> {
    let mut after = ledger.clone();
    let mut tracks = fire_some(rng, plan, &mut after, usize::MAX);
    match rng.below(100) {
        0..=44 => {}
        45..=69 => tracks.truncate(rng.below(tracks.len().max(1))),
        _ => spoil(rng, plan, ledger, &mut tracks),
    }
    tracks
}

/// Puts a track into an order where it may not be fired, often a host that has
/// entries of its own to wait with; the number of no track where there is none,
/// and now and then.
fn spoil(rng: &mut Rng, plan: &Plan, ledger: &Ledger, tracks: &mut Vec<u16>) {
    let at = rng.below(tracks.len() + 1);
    let mut then = ledger.clone();
    for &track in &tracks[..at] {
        rules::fire_freely(plan, &mut then, usize::from(track)).expect("an order");
    }
    let stays = |t: &usize| !rules::may_fire(plan, &then, *t);
    let staying: Vec<usize> = (0..plan.track_count()).filter(stays).collect();
    let holds = |t: &usize| then.tracks[*t].mode == Mode::Undoing && then.tracks[*t].held() > 0;
    let hosts: Vec<usize> = staying.iter().copied().filter(holds).collect();
    let host = rng.pick(&hosts).filter(|_| rng.chance(60));
    let track = match host.or_else(|| rng.pick(&staying).filter(|_| rng.chance(80))) {
        Some(track) => track as u16,
        None => journals::missing_track(rng, plan),
    };
    if rng.chance(50) {
        tracks.truncate(at);
    }
    tracks.insert(at, track);
}

/// Gives each right that nobody has over a root to somebody.
fn give_missing_rights(rng: &mut Rng, plan: &mut Records) {
    let roots = societies::roots(&plan.tracks);
    plan.rights.truncate(MAX_RIGHTS - roots.len());
    for root in roots {
        let own = plan.rights.iter().filter(|r| r.root == root);
        let missing = Rights::ALL & !own.fold(0, |sum, r| sum | r.sum);
        match plan.rights.iter_mut().find(|r| r.root == root) {
            Some(record) => record.sum |= missing,
            None => plan.rights.push(Rights {
                society: rng.between(1, 3) as u16,
                root,
                sum: missing,
            }),
        }
    }
}

/// A history that leaves the ledger not over: events alone, or the start of one
/// of any sort.
fn history(rng: &mut Rng, plan: &Plan, ledger: &mut Ledger) -> Vec<Record> {
    if rng.chance(65) {
        return onwards(rng, plan, ledger);
    }
    let records = journals::history(rng, ledger.limit, plan).0;
    let most = rng.between(1, records.len().max(1));
    let start = records.into_iter().take(most);
    start.take_while(|&r| goes_on(plan, ledger, r)).collect()
}

/// Events that move tracks, as long as there is one.
fn onwards(rng: &mut Rng, plan: &Plan, ledger: &mut Ledger) -> Vec<Record> {
    let most = rng.pick(&[6, 20, 60, 200]).unwrap_or(20);
    let mut records = Vec::new();
    for _ in 0..rng.between(1, most) {
        let events = journals::moving_events(plan, ledger, |_| true);
        let record = match rng.pick(&events) {
            Some(event) => journals::event_of(rng, plan, ledger, event),
            None => break,
        };
        if goes_on(plan, ledger, record) {
            records.push(record);
        }
    }
    records
}

/// Does the record unless it ends the ledger; whether it did.
fn goes_on(plan: &Plan, ledger: &mut Ledger, record: Record) -> bool {
    let mut after = ledger.clone();
    journal::perform(plan, &mut after, record);
    let done = !after.is_over();
    if done {
        *ledger = after;
    }
    done
}

/// Signals of one society after another until no track is forward, now and then
/// of one alone, and now and then with another call before the next.
fn signals(rng: &mut Rng, plan: &Plan, ledger: &mut Ledger) -> Vec<Record> {
    let mut able = societies::named(plan);
    able.retain(|&society| plan.allows_somewhere(society, Right::Signal));
    rng.shuffle(&mut able);
    if rng.chance(25) {
        able.truncate(1);
    }
    let mut records = Vec::new();
    for society in able {
        if !records.is_empty() && rng.chance(30) {
            let between = journals::useless(rng, plan, ledger);
            if goes_on(plan, ledger, between) {
                records.push(between);
            }
        }
        records.push(Record::Signal(society));
        journal::perform(plan, ledger, Record::Signal(society));
        if ledger.tracks.iter().all(|t| t.mode != Mode::Forward) {
            break;
        }
    }
    records
}
