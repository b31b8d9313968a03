//! Histories and journals, steered by the rules so that they move, close,
//! signal, abandon, fire and deviate, on days in and about the windows, by
//! societies that mostly have the right.

use super::damage;
use super::days;
use super::plans;
use super::rng::Rng;
use super::societies;
use second::days::Term;
use second::journal::{self, Record, MAX_BYTES};
use second::ledger::{Ledger, Mode};
use second::limit::Limit;
use second::plan::{self, members, Plan, Right};
use second::record;
use second::rules;

/// How a history goes, in percent.
struct Temper {
    /// Records that are likely to be useless.
    useless: usize,
    /// Signals while something can move.
    signal: usize,
    /// The same while roots are in both modes.
    again: usize,
    /// Firings while something can move as well.
    fire: usize,
    /// Events repeated while they still move something.
    repeat: usize,
    /// Events chosen for a move into a final state.
    haste: usize,
}

/// A plan file and a journal for `unwind`.
pub struct Case {
    pub plan: Vec<u8>,
    pub journal: Vec<u8>,
}

/// A whole run of `unwind`, at its limit: mostly a good plan with a steered
/// journal.
pub fn case(rng: &mut Rng, most_tracks: usize) -> Case {
    let good = !rng.chance(6);
    let plan = if good {
        plans::bytes(rng, most_tracks)
    } else {
        damage::any_plan(rng, most_tracks)
    };
    let journal = match plan::read(&plan) {
        Ok(plan) => journal(rng, &plan),
        Err(_) => stray_journal(rng),
    };
    let mut case = Case { plan, journal };
    if rng.below(250) == 0 {
        stretch(rng, &mut case);
    }
    case
}

/// Brings the plan file or the journal to the greatest length, or one more.
fn stretch(rng: &mut Rng, case: &mut Case) {
    let length = MAX_BYTES + rng.below(2);
    if rng.chance(30) {
        case.plan.resize(length, 0);
    } else {
        pad(rng, &mut case.journal);
        case.journal.resize(length, 0);
    }
}

/// Bytes of a signal, and of a firing of the lowest track.
const SHORTEST: usize = 6;

/// Appends whole records up to the greatest length. A firing has two bytes more
/// than the shortest records.
fn pad(rng: &mut Rng, journal: &mut Vec<u8>) {
    for _ in 0..(MAX_BYTES - journal.len()) % SHORTEST / 2 {
        Record::Fire(0, 1).encode(journal);
    }
    while journal.len() + SHORTEST <= MAX_BYTES {
        let society = rng.between(1, 2) as u16;
        let record = if rng.chance(10) {
            Record::Signal(society)
        } else {
            Record::FireLowest(society)
        };
        record.encode(journal);
    }
}

/// A journal steered through the plan, sometimes ending in a broken record.
pub fn journal(rng: &mut Rng, plan: &Plan) -> Vec<u8> {
    let mut bytes = Vec::new();
    for record in history(rng, Limit::MAIN, plan).0 {
        record.encode(&mut bytes);
    }
    if rng.chance(15) {
        break_off(rng, &mut bytes);
    }
    bytes
}

/// A journal for a plan that is refused anyway.
fn stray_journal(rng: &mut Rng) -> Vec<u8> {
    let mut bytes = Vec::new();
    for _ in 0..rng.below(4) {
        let event = rng.between(1, 5) as u16;
        Record::Event(event, days::any_day(rng), 1).encode(&mut bytes);
    }
    bytes
}

/// Appends a broken record of each form, and sometimes whole ones after it.
fn break_off(rng: &mut Rng, bytes: &mut Vec<u8>) {
    match rng.below(4) {
        0 => bytes.extend((0..rng.between(1, 3)).map(|n| n as u8)),
        1 => unknown_kind(rng, bytes),
        2 => wrong_length(rng, bytes),
        _ => cut_short(rng, bytes),
    }
}

/// A kind that no record has, often that of an event without a day.
fn unknown_kind(rng: &mut Rng, bytes: &mut Vec<u8>) {
    let kinds = [0, 1, 2, 3, 4, 5, 15, 16, 16, 16, 21, 4096, 65535];
    let kind = rng.pick(&kinds).unwrap_or(0);
    record::put(bytes, kind, &[1, 0, 0, 1][..rng.below(5)]);
    Record::Signal(1).encode(bytes);
}

fn wrong_length(rng: &mut Rng, bytes: &mut Vec<u8>) {
    let kind = rng.between(17, 20) as u16;
    let right = journal::kind_length(kind);
    let lengths: Vec<u16> = [0, 2, 4, 5, 6, 8, 10, 12, 14, 65535]
        .into_iter()
        .filter(|&l| Some(l) != right)
        .collect();
    let length = rng.pick(&lengths).unwrap_or(0);
    record::put_words(bytes, &[length, kind, 1, 0, 0, 1, 0]);
}

fn cut_short(rng: &mut Rng, bytes: &mut Vec<u8>) {
    let mut whole = Vec::new();
    if rng.chance(50) {
        Record::Event(1, 0, 1).encode(&mut whole);
    } else {
        Record::Fire(0, 1).encode(&mut whole);
    }
    let kept = rng.between(record::HEADER, whole.len() - 1);
    bytes.extend_from_slice(&whole[..kept]);
}

/// A steered history from begin at a limit, and the ledger it leaves.
pub fn history(rng: &mut Rng, limit: Limit, plan: &Plan) -> (Vec<Record>, Ledger) {
    let temper = temper(rng, plan);
    let length = history_length(rng);
    steered(rng, &temper, (limit, plan), length)
}

fn steered(
    rng: &mut Rng,
    temper: &Temper,
    (limit, plan): (Limit, &Plan),
    length: usize,
) -> (Vec<Record>, Ledger) {
    let mut ledger = rules::begin(limit, plan);
    let mut records: Vec<Record> = Vec::new();
    let mut left = length;
    while left > 0 {
        let record = next_record(rng, temper, plan, &ledger, records.last());
        journal::perform(plan, &mut ledger, record);
        records.push(record);
        left -= 1;
        if is_spent(plan, &ledger) {
            left = left.min(rng.below(5));
        }
    }
    (records, ledger)
}

/// Records of a short history.
const SHORT: usize = 8;

/// Tries at a short history that ends half withdrawn.
const TRIES: usize = 400;

/// A small plan and a short history, most often one that is over at its end
/// with some root taken back: by an event or by a firing, equally often, and
/// more seldom by a signal.
pub fn half_withdrawn(rng: &mut Rng, limit: Limit, most_tracks: usize) -> (Vec<u8>, Vec<Record>) {
    let way = rng.below(5);
    let wanted = |last| match last {
        Record::Event(..) => way < 2,
        Record::Signal(_) => way == 4,
        Record::Fire(..) | Record::FireLowest(_) => way == 2 || way == 3,
    };
    let mut tries = TRIES;
    loop {
        let bytes = plans::small_linked_records(rng, most_tracks).encode();
        let plan = plan::read(&bytes).expect("a good plan is accepted");
        let temper = parting(rng);
        let records = steered(rng, &temper, (limit, &plan), SHORT).0;
        tries -= 1;
        if tries == 0 || parted_end(limit, &plan, &records).map_or(false, wanted) {
            return (bytes, records);
        }
    }
}

/// The record that put every track to sleep, where it is a signal or roots were
/// in both modes before it.
fn parted_end(limit: Limit, plan: &Plan, records: &[Record]) -> Option<Record> {
    let mut ledger = rules::begin(limit, plan);
    for &record in records {
        let parted = is_parted(plan, &ledger);
        journal::perform(plan, &mut ledger, record);
        if ledger.is_over() {
            let signal = matches!(record, Record::Signal(_));
            return Some(record).filter(|_| parted || signal);
        }
    }
    None
}

/// Whether nothing more can happen by anyone's right: over, or all undoing with
/// none ready.
fn is_spent(plan: &Plan, ledger: &Ledger) -> bool {
    let held = |right, t| societies::is_held(plan, right, t);
    let strikes = |t: usize| match ledger.tracks[t].mode {
        Mode::Asleep => false,
        Mode::Forward => held(Right::Move, t) || held(Right::Signal, t),
        Mode::Undoing => rules::may_fire(plan, ledger, t) && held(Right::Fire, t),
    };
    !(0..plan.track_count()).any(strikes)
}

fn temper(rng: &mut Rng, plan: &Plan) -> Temper {
    let several = plan.roots().nth(1).is_some();
    if rng.chance(if several { 45 } else { 5 }) {
        return parting(rng);
    }
    let pumping = rng.chance(25);
    let signal = if pumping {
        rng.between(1, 3)
    } else {
        rng.pick(&[3, 6, 15]).unwrap_or(0)
    };
    Temper {
        useless: rng.pick(&[0, 5, 10, 30]).unwrap_or(0),
        signal,
        again: signal,
        fire: 55,
        repeat: if pumping { 95 } else { 20 },
        haste: rng.pick(&[0, 30, 60]).unwrap_or(0),
    }
}

/// Signals early, then lets some roots go forward to their ends while others
/// are taken back.
fn parting(rng: &mut Rng) -> Temper {
    Temper {
        useless: rng.pick(&[0, 5, 10]).unwrap_or(0),
        signal: rng.between(10, 35),
        again: rng.below(4),
        fire: rng.pick(&[10, 30, 60, 90]).unwrap_or(0),
        repeat: 10,
        haste: rng.between(40, 95),
    }
}

fn history_length(rng: &mut Rng) -> usize {
    match rng.below(100) {
        0..=2 => rng.below(3),
        3..=49 => rng.between(4, 30),
        50..=84 => rng.between(20, 80),
        _ => rng.between(60, 180),
    }
}

/// The next record: one that does something, or a useless one.
fn next_record(
    rng: &mut Rng,
    temper: &Temper,
    plan: &Plan,
    ledger: &Ledger,
    before: Option<&Record>,
) -> Record {
    if rng.chance(temper.useless) {
        return useless(rng, plan, ledger);
    }
    let events = moving_events(plan, ledger, |_| true);
    if let Some(society) = finishing_signal(plan, ledger).filter(|_| rng.chance(40)) {
        return Record::Signal(society);
    }
    let mut ready: Vec<usize> = members(rules::ready(plan, ledger)).collect();
    ready.retain(|&t| societies::is_held(plan, Right::Fire, t));
    let fires = !ready.is_empty() && (events.is_empty() || rng.chance(temper.fire));
    if fires {
        return firing(rng, plan, &ready);
    }
    let signal = if is_parted(plan, ledger) {
        temper.again
    } else {
        temper.signal
    };
    if rng.chance(signal) {
        return Record::Signal(signaller(rng, plan, ledger));
    }
    match before {
        Some(&Record::Event(e, _, _)) if events.contains(&e) && rng.chance(temper.repeat) => {
            event_of(rng, plan, ledger, e)
        }
        _ => moving_event(rng, temper, plan, ledger, &events),
    }
}

/// A society whose signal leaves the ledger over, if there is one: it takes
/// back all roots that have not ended.
pub fn finishing_signal(plan: &Plan, ledger: &Ledger) -> Option<u16> {
    let ended = |t: usize| rules::has_ended(plan, ledger, t);
    if ledger.is_over() || !plan.roots().any(ended) {
        return None;
    }
    societies::named(plan).into_iter().find(|&society| {
        let mut after = ledger.clone();
        let done = rules::signal(plan, &mut after, society);
        done.is_ok() && after.is_over()
    })
}

/// Whether some root is forward and some root undoing.
fn is_parted(plan: &Plan, ledger: &Ledger) -> bool {
    let some = |mode| plan.roots().any(|t| ledger.tracks[t].mode == mode);
    some(Mode::Forward) && some(Mode::Undoing)
}

/// An event on a fitting day, by a society that can move something by it.
pub fn event_of(rng: &mut Rng, plan: &Plan, ledger: &Ledger, event: u16) -> Record {
    let day = event_day(rng, plan, ledger, event);
    Record::Event(event, day, mover(rng, plan, ledger, event))
}

/// A society for an event: mostly one whose tracks move by it.
pub fn mover(rng: &mut Rng, plan: &Plan, ledger: &Ledger, event: u16) -> u16 {
    let moves = |&t: &usize| {
        let transition = plan.transition(ledger.tracks[t].state, event);
        transition.is_some() && rules::may_move(plan, ledger, t)
    };
    let moving: Vec<usize> = (0..plan.track_count()).filter(moves).collect();
    societies::caller(rng, plan, Right::Move, &moving)
}

/// A society for a signal: mostly one with forward tracks to turn.
pub fn signaller(rng: &mut Rng, plan: &Plan, ledger: &Ledger) -> u16 {
    let forward = |&t: &usize| ledger.tracks[t].mode == Mode::Forward;
    let forward: Vec<usize> = (0..plan.track_count()).filter(forward).collect();
    societies::caller(rng, plan, Right::Signal, &forward)
}

/// A firing that is allowed, or now and then of any track; one of the lowest
/// track now and then by a society that may fire none of the ready ones, or only
/// higher ones.
fn firing(rng: &mut Rng, plan: &Plan, ready: &[usize]) -> Record {
    if rng.chance(8) {
        let track = rng.below(plan.track_count());
        return Record::Fire(track as u16, firer(rng, plan, &[track]));
    }
    match rng.pick(ready) {
        Some(track) if rng.chance(60) => Record::Fire(track as u16, firer(rng, plan, &[track])),
        _ if rng.chance(8) => Record::FireLowest(societies::any(rng, plan)),
        _ if rng.chance(40) => Record::FireLowest(firer(rng, plan, &ready[ready.len() / 2..])),
        _ => Record::FireLowest(firer(rng, plan, ready)),
    }
}

/// A society for a firing: mostly one that may fire one of the tracks.
pub fn firer(rng: &mut Rng, plan: &Plan, tracks: &[usize]) -> u16 {
    societies::caller(rng, plan, Right::Fire, tracks)
}

/// An event that moves something, or a signal or firing where none does.
fn moving_event(
    rng: &mut Rng,
    temper: &Temper,
    plan: &Plan,
    ledger: &Ledger,
    events: &[u16],
) -> Record {
    let hasty = moving_events(plan, ledger, |s| plan.is_final(s));
    let busiest = busiest(plan, ledger, &hasty).filter(|_| rng.chance(45));
    let hasty = busiest.or_else(|| rng.pick(&hasty).filter(|_| rng.chance(temper.haste)));
    match hasty.or_else(|| rng.pick(events)) {
        Some(event) => event_of(rng, plan, ledger, event),
        None if rng.chance(50) => Record::Signal(signaller(rng, plan, ledger)),
        None => useless(rng, plan, ledger),
    }
}

/// A day for an event, now and then one that is refused; else mostly one of a
/// window that the event waits for, or just beside it.
pub fn event_day(rng: &mut Rng, plan: &Plan, ledger: &Ledger, event: u16) -> i32 {
    if rng.chance(3) {
        return refused_day(rng, ledger);
    }
    let mut windows = windows_met(plan, ledger, event);
    windows.retain(|term| term.last >= ledger.day);
    match rng.pick(&windows) {
        Some(term) => window_day(rng, ledger.day, term),
        None => later_day(rng, plan, ledger.day),
    }
}

/// The windows of the transitions that tracks would take by an event, were it
/// not for the day.
pub fn windows_met(plan: &Plan, ledger: &Ledger, event: u16) -> Vec<Term> {
    (0..plan.track_count())
        .filter(|&t| rules::may_move(plan, ledger, t))
        .filter_map(|t| plan.transition(ledger.tracks[t].state, event))
        .map(|(_, term)| term)
        .filter(|&term| term != Term::RANGE)
        .collect()
}

/// A day of a window that has not passed by the last day, or one beside it.
fn window_day(rng: &mut Rng, last: i32, term: Term) -> i32 {
    let first = term.first.max(last);
    match rng.below(100) {
        0..=54 => first,
        55..=69 => days::between(rng, first, term.last),
        70..=81 => term.last,
        82..=89 => days::clamped(term.last + 1),
        90..=96 => (term.first - 1).max(last),
        _ => last,
    }
}

/// The same day or a later one; after a begin, mostly a day near a window.
fn later_day(rng: &mut Rng, plan: &Plan, last: i32) -> i32 {
    if last == Term::RANGE.first && rng.chance(70) {
        return day_near_windows(rng, plan);
    }
    let later = match rng.below(100) {
        0..=64 => last,
        65..=89 => last + rng.between(1, 3) as i32,
        90..=98 => last + rng.below(40) as i32,
        _ => days::between(rng, last, Term::RANGE.last),
    };
    days::clamped(later)
}

/// The first or the last day of some window, a day beside it, or any day.
pub fn day_near_windows(rng: &mut Rng, plan: &Plan) -> i32 {
    let window = rng.pick(&plan.records().windows);
    match window.filter(|_| rng.chance(80)) {
        Some(window) => {
            let edge = rng.pick(&[window.term.first, window.term.last]);
            days::clamped(edge.unwrap_or(0) - 1 + rng.below(3) as i32)
        }
        None => days::any_day(rng),
    }
}

/// A day before the last one, mostly by little, or out of range.
pub fn refused_day(rng: &mut Rng, ledger: &Ledger) -> i32 {
    if ledger.day == Term::RANGE.first || rng.chance(40) {
        return days::outside(rng);
    }
    let before = ledger.day - 1;
    if rng.chance(50) {
        before
    } else {
        days::between(rng, Term::RANGE.first, before)
    }
}

/// The events by which some society moves a track into a destination of the
/// wanted sort, on some day that is not before the last.
pub fn moving_events(plan: &Plan, ledger: &Ledger, wanted: impl Fn(u16) -> bool) -> Vec<u16> {
    let wanted = &wanted;
    let mut events: Vec<u16> = (0..plan.track_count())
        .filter(|&t| rules::may_move(plan, ledger, t))
        .filter(|&t| societies::is_held(plan, Right::Move, t))
        .flat_map(|t| plan.transitions_from(ledger.tracks[t].state))
        .filter(|(x, term)| wanted(x.destination) && term.last >= ledger.day)
        .map(|(x, _)| x.event)
        .collect();
    events.sort_unstable();
    events.dedup();
    events
}

/// Of these events the one by which the most tracks move into final states.
pub fn busiest(plan: &Plan, ledger: &Ledger, events: &[u16]) -> Option<u16> {
    let moves = |event: u16, t: usize| {
        let transition = plan.transition(ledger.tracks[t].state, event);
        let ends = transition.map_or(false, |(x, _)| plan.is_final(x.destination));
        ends && rules::may_move(plan, ledger, t)
    };
    let tracks = 0..plan.track_count();
    let count = |&event: &u16| tracks.clone().filter(|&t| moves(event, t)).count();
    events.iter().copied().max_by_key(count)
}

/// A record that need not do anything: any event of the plan, event 0, an
/// unknown event, on any day, any track, a missing track, a signal, a firing, by
/// any society.
pub fn useless(rng: &mut Rng, plan: &Plan, ledger: &Ledger) -> Record {
    let day = if rng.chance(75) {
        later_day(rng, plan, ledger.day)
    } else {
        refused_day(rng, ledger)
    };
    let society = if rng.chance(75) {
        societies::any(rng, plan)
    } else {
        societies::stranger(rng, plan)
    };
    match rng.below(12) {
        0 => Record::Event(0, day, society),
        1 => Record::Event(rng.word(), day, society),
        2..=4 => Record::Event(any_event(rng, plan), day, society),
        5..=7 => Record::Fire(rng.below(plan.track_count()) as u16, society),
        8 => Record::Fire(missing_track(rng, plan), society),
        9 => Record::Signal(society),
        _ => Record::FireLowest(society),
    }
}

/// Some event of the plan.
pub fn any_event(rng: &mut Rng, plan: &Plan) -> u16 {
    rng.pick(plan.transitions()).map_or(1, |x| x.event)
}

/// The number of no track.
pub fn missing_track(rng: &mut Rng, plan: &Plan) -> u16 {
    let next = plan.track_count() as u16;
    rng.pick(&[next, 32, 33, 64, 65535])
        .filter(|&t| t >= next)
        .unwrap_or(next)
}
