//! Single calls at a limit, on sound ledgers, some of them near their finish, full
//! or with rights divided among societies, on damaged ones, and on those of other
//! plans and of other limits; and conversions.

use super::damage;
use super::days;
use super::journals;
use super::ledgers;
use super::neighbours;
use super::plans;
use super::rng::Rng;
use super::societies;
use second::days::Date;
use second::journal::{self, Outcome, Record};
use second::ledger::{self, Clause, Ledger, LEADING_WORDS, PLAN_WORDS};
use second::limit::Limit;
use second::plan::{self, members, Plan};
use second::rules;

/// A call on lent words, or a conversion, which is given none.
#[derive(Clone, Copy, Debug, PartialEq, Eq)]
pub enum Call {
    /// An event, its day and the society.
    Event(u16, i32, u16),
    /// A signal of a society.
    Signal(u16),
    /// A track and the society.
    Fire(u16, u16),
    Ready,
    Entries(u16),
    DateOfDay(i32),
    DayOfDate(Date),
}

impl Call {
    /// The journal record that makes the same call, if one does.
    pub fn record(self) -> Option<Record> {
        match self {
            Call::Event(event, day, society) => Some(Record::Event(event, day, society)),
            Call::Signal(society) => Some(Record::Signal(society)),
            Call::Fire(track, society) => Some(Record::Fire(track, society)),
            _ => None,
        }
    }

    /// The call that a journal record makes; none of one of the lowest track.
    pub fn of(record: Record) -> Option<Call> {
        match record {
            Record::Event(event, day, society) => Some(Call::Event(event, day, society)),
            Record::Signal(society) => Some(Call::Signal(society)),
            Record::Fire(track, society) => Some(Call::Fire(track, society)),
            Record::FireLowest(_) => None,
        }
    }
}

/// Either conversion, of a day or date that need not be of the range.
pub fn conversion(rng: &mut Rng) -> Call {
    if rng.chance(50) {
        Call::DateOfDay(days::day_to_convert(rng))
    } else {
        Call::DayOfDate(days::date_to_convert(rng))
    }
}

/// A single call with what it is given.
#[derive(Clone, Debug)]
pub struct Single {
    /// The caller's limit.
    pub limit: Limit,
    pub plan: Vec<u8>,
    pub words: Vec<u16>,
    pub call: Call,
    /// The limit that the ledger was made at, where that is another one.
    pub made_at: Option<Limit>,
    /// The plan that the ledger was begun under, where that is another one
    /// with as many tracks.
    pub begun_under: Option<Vec<u8>>,
}

/// Tries at a plan that allows the wanted damage.
const TRIES: usize = 24;

/// Percent of single calls at the reading rooms' limit.
const READING_ROOM: usize = 35;

/// A single call at either limit.
pub fn single(rng: &mut Rng, most_tracks: usize) -> Single {
    let limit = if rng.chance(READING_ROOM) {
        Limit::READING_ROOM
    } else {
        Limit::MAIN
    };
    single_at(rng, limit, most_tracks)
}

/// A single call at a limit: on a sound ledger, one with tracks that are full or
/// nearly so, one made at another limit, one whose scopes close at once, one with
/// rights divided among societies, under a plan with unfit rights, on a ledger
/// near its finish, a damaged one, too few words, a damaged plan, or a ledger of
/// another plan.
pub fn single_at(rng: &mut Rng, limit: Limit, most_tracks: usize) -> Single {
    let given = (limit, most_tracks);
    match rng.below(100) {
        0..=30 => on_sound(rng, given),
        31..=33 => on_brimming(rng, given),
        34..=36 => on_other_limits(rng, given),
        37 => on_closings(rng, given),
        38..=43 => on_divided(rng, given),
        44..=45 => on_unfit_rights(rng, given),
        46..=51 => on_near_finish(rng, given),
        52..=73 => on_violated(rng, given),
        74..=79 => on_flipped(rng, given),
        80..=83 => on_few_words(rng, given),
        84..=88 => on_any_plan(rng, given),
        89..=93 => on_misled(rng, given),
        94..=97 => on_neighbours(rng, given),
        _ => on_alike(rng, given),
    }
}

/// The caller's limit, and the most tracks of a plan.
type Given = (Limit, usize);

fn good_plan(rng: &mut Rng, most_tracks: usize) -> (Vec<u8>, Plan) {
    loop {
        let bytes = plans::bytes(rng, most_tracks);
        if let Ok(plan) = plan::read(&bytes) {
            return (bytes, plan);
        }
    }
}

/// A plan that most often has several roots.
fn linked_plan(rng: &mut Rng, most_tracks: usize) -> (Vec<u8>, Plan) {
    let bytes = plans::linked_records(rng, most_tracks).encode();
    let plan = plan::read(&bytes).expect("a good plan is accepted");
    (bytes, plan)
}

fn on_sound(rng: &mut Rng, (limit, most_tracks): Given) -> Single {
    let (bytes, plan) = good_plan(rng, most_tracks);
    let ledger = ledgers::sound(rng, limit, &plan);
    Single {
        limit,
        made_at: None,
        words: ledgers::lend(rng, &ledger),
        call: steered_call(rng, &plan, &ledger),
        plan: bytes,
        begun_under: None,
    }
}

/// Tracks that are full or nearly so, and mostly an event that moves or a firing.
fn on_brimming(rng: &mut Rng, (limit, most_tracks): Given) -> Single {
    let (bytes, plan) = good_plan(rng, most_tracks);
    let ledger = ledgers::brimming(rng, limit, &plan);
    let firing = steered_firing(rng, &plan, &ledger).filter(|_| rng.chance(40));
    Single {
        limit,
        made_at: None,
        words: ledgers::lend(rng, &ledger),
        call: firing.unwrap_or_else(|| steered_event(rng, &plan, &ledger)),
        plan: bytes,
        begun_under: None,
    }
}

/// A limit that is not this one: the other of the two settings.
fn other_limit(limit: Limit) -> Limit {
    match limit {
        Limit::READING_ROOM => Limit::MAIN,
        _ => Limit::READING_ROOM,
    }
}

/// A ledger made at another limit, often of few tracks, and mostly with as many
/// words as the caller's limit needs: zeros beyond its own, or any.
fn on_other_limits(rng: &mut Rng, (limit, most_tracks): Given) -> Single {
    let made_at = other_limit(limit);
    let few = rng.pick(&[1, 2, 3, most_tracks]).unwrap_or(1);
    let (bytes, plan) = good_plan(rng, few.min(most_tracks));
    let ledger = if rng.chance(50) {
        ledgers::begun(rng, made_at, &plan)
    } else {
        ledgers::sound(rng, made_at, &plan)
    };
    let mut words = ledgers::lend(rng, &ledger);
    let needed = ledger::words_needed(limit, &plan);
    if words.len() < needed && rng.chance(85) {
        let zeros = rng.chance(70);
        let beyond = needed + rng.below(3) - words.len();
        words.extend((0..beyond).map(|_| if zeros { 0 } else { rng.word() }));
    }
    let call = if words.len() < needed {
        any_call(rng, &plan)
    } else {
        fitting_call(rng, limit, &plan, &words)
    };
    Single {
        limit,
        made_at: Some(made_at),
        plan: bytes,
        words,
        call,
        begun_under: None,
    }
}

/// A ledger on which an event closes several scopes, if a few tries find one.
fn on_closings(rng: &mut Rng, (limit, most_tracks): Given) -> Single {
    for _ in 0..TRIES / 2 {
        let (bytes, plan) = good_plan(rng, most_tracks);
        let ledger = ledgers::sound(rng, limit, &plan);
        let events = journals::moving_events(&plan, &ledger, |s| plan.is_final(s));
        let event = match journals::busiest(&plan, &ledger, &events) {
            Some(event) => journals::event_of(rng, &plan, &ledger, event),
            None => continue,
        };
        let outcome = journal::perform(&plan, &mut ledger.clone(), event);
        if matches!(outcome, Outcome::Event(_, m) if m.closed > 1) {
            return Single {
                limit,
                made_at: None,
                words: ledgers::lend(rng, &ledger),
                call: Call::of(event).unwrap_or(Call::Ready),
                plan: bytes,
                begun_under: None,
            };
        }
    }
    on_sound(rng, (limit, most_tracks))
}

/// A ledger under a plan with several roots and, mostly, several societies, and
/// a call that rights have a say in.
fn on_divided(rng: &mut Rng, (limit, most_tracks): Given) -> Single {
    let (bytes, plan) = loop {
        let (bytes, plan) = linked_plan(rng, most_tracks);
        if societies::named(&plan).len() > 1 || rng.chance(20) {
            break (bytes, plan);
        }
    };
    let ledger = ledgers::sound(rng, limit, &plan);
    let call = match rng.below(100) {
        0..=62 => Call::Signal(journals::signaller(rng, &plan, &ledger)),
        63..=84 => steered_event(rng, &plan, &ledger),
        _ => any_firing(rng, &plan, &ledger),
    };
    Single {
        limit,
        made_at: None,
        words: ledgers::lend(rng, &ledger),
        call,
        plan: bytes,
        begun_under: None,
    }
}

/// A firing of a ready track, if there is one, by any society of the plan.
fn any_firing(rng: &mut Rng, plan: &Plan, ledger: &Ledger) -> Call {
    let ready: Vec<usize> = members(rules::ready(plan, ledger)).collect();
    let track = rng.pick(&ready).unwrap_or(0);
    Call::Fire(track as u16, societies::any(rng, plan))
}

/// A plan whose rights records are unfit, with a ledger of another plan.
fn on_unfit_rights(rng: &mut Rng, (limit, most_tracks): Given) -> Single {
    let mut single = on_sound(rng, (limit, most_tracks));
    single.plan = damage::refused_as(rng, most_tracks, 27);
    single
}

/// A ledger near its finish, and mostly a call that finishes.
fn on_near_finish(rng: &mut Rng, (limit, most_tracks): Given) -> Single {
    let (bytes, plan) = linked_plan(rng, most_tracks);
    let ledger = ledgers::near_finish(rng, limit, &plan);
    let finishing = finishing_call(rng, &plan, &ledger).filter(|_| rng.chance(80));
    Single {
        limit,
        made_at: None,
        words: ledgers::lend(rng, &ledger),
        call: finishing.unwrap_or_else(|| steered_call(rng, &plan, &ledger)),
        plan: bytes,
        begun_under: None,
    }
}

/// A call that leaves the ledger over, if there is one; a signal more often
/// than not where one does.
fn finishing_call(rng: &mut Rng, plan: &Plan, ledger: &Ledger) -> Option<Call> {
    let signaller = journals::finishing_signal(plan, ledger);
    if let Some(society) = signaller.filter(|_| rng.chance(60)) {
        return Some(Call::Signal(society));
    }
    let mut records = Vec::new();
    for event in journals::moving_events(plan, ledger, |s| plan.is_final(s)) {
        records.push(journals::event_of(rng, plan, ledger, event));
    }
    for track in members(rules::ready(plan, ledger)) {
        let society = journals::firer(rng, plan, &[track]);
        records.push(Record::Fire(track as u16, society));
    }
    records.retain(|&record| {
        let mut after = ledger.clone();
        journal::perform(plan, &mut after, record);
        after.is_over()
    });
    rng.pick(&records).and_then(Call::of)
}

/// One clause violated alone; where no plan allows it, words flipped.
fn on_violated(rng: &mut Rng, (limit, most_tracks): Given) -> Single {
    let clauses: Vec<Clause> = Clause::all().collect();
    let clause = rng.pick(&clauses).unwrap_or(Clause::ModesKnown);
    for _ in 0..TRIES {
        let linked = clause == Clause::NoFinishLeft && rng.chance(50);
        let (bytes, plan) = if linked {
            linked_plan(rng, most_tracks)
        } else {
            good_plan(rng, most_tracks)
        };
        if let Some(words) = ledgers::violate(rng, limit, &plan, clause) {
            let call = any_call(rng, &plan);
            return Single {
                limit,
                made_at: None,
                plan: bytes,
                words,
                call,
                begun_under: None,
            };
        }
    }
    on_flipped(rng, (limit, most_tracks))
}

fn on_flipped(rng: &mut Rng, (limit, most_tracks): Given) -> Single {
    let (bytes, plan) = good_plan(rng, most_tracks);
    let ledger = ledgers::sound(rng, limit, &plan);
    let mut words = ledgers::lend(rng, &ledger);
    ledgers::flip(rng, limit, &plan, &mut words);
    Single {
        limit,
        made_at: None,
        call: fitting_call(rng, limit, &plan, &words),
        plan: bytes,
        words,
        begun_under: None,
    }
}

/// One word too few, no room for the leading words or for the day, not even
/// these, or any number fewer.
fn on_few_words(rng: &mut Rng, (limit, most_tracks): Given) -> Single {
    let (bytes, plan) = good_plan(rng, most_tracks);
    let ledger = ledgers::sound(rng, limit, &plan);
    let mut words = ledger.words();
    let needed = words.len();
    words.truncate(match rng.below(100) {
        0..=44 => needed - 1,
        45..=49 => needed - LEADING_WORDS,
        50..=54 => needed - PLAN_WORDS,
        55..=69 => rng.below(LEADING_WORDS),
        _ => rng.below(needed),
    });
    Single {
        limit,
        made_at: None,
        call: steered_call(rng, &plan, &ledger),
        plan: bytes,
        words,
        begun_under: None,
    }
}

/// Leading words that are not the plan's, before tracks that are mostly sound.
fn on_misled(rng: &mut Rng, (limit, most_tracks): Given) -> Single {
    let (bytes, plan) = good_plan(rng, most_tracks);
    let ledger = ledgers::sound(rng, limit, &plan);
    let mut words = ledgers::lend(rng, &ledger);
    if rng.chance(15) {
        ledgers::flip(rng, limit, &plan, &mut words);
    }
    ledgers::mislead(rng, &mut words);
    Single {
        limit,
        made_at: None,
        call: telling_call(rng, &plan, &ledger),
        plan: bytes,
        words,
        begun_under: None,
    }
}

/// A ledger begun under a neighbour's plan with as many tracks.
fn on_neighbours(rng: &mut Rng, (limit, most_tracks): Given) -> Single {
    let (bytes, plan) = good_plan(rng, most_tracks);
    let neighbour = neighbours::neighbour(rng, &plan);
    let ledger = ledgers::begun(rng, limit, &neighbour);
    Single {
        limit,
        made_at: None,
        words: ledgers::lend(rng, &ledger),
        call: telling_call(rng, &neighbour, &ledger),
        plan: bytes,
        begun_under: Some(neighbour.records().encode()),
    }
}

/// A ledger begun under a plan alike in both leading words, now and then one
/// that is not sound; where none is found, a neighbour's.
fn on_alike(rng: &mut Rng, (limit, most_tracks): Given) -> Single {
    let unsound = rng.chance(25);
    for _ in 0..TRIES {
        let (bytes, plan) = good_plan(rng, most_tracks);
        if let Some((alike, words)) = alike_ledger(rng, limit, &plan) {
            if unsound && ledger::is_sound(limit, &plan, &words) {
                continue;
            }
            return Single {
                limit,
                made_at: None,
                call: fitting_call(rng, limit, &plan, &words),
                plan: bytes,
                words,
                begun_under: Some(alike.records().encode()),
            };
        }
    }
    on_neighbours(rng, (limit, most_tracks))
}

/// A plan alike in both leading words, and a ledger begun under it.
fn alike_ledger(rng: &mut Rng, limit: Limit, plan: &Plan) -> Option<(Plan, Vec<u16>)> {
    let alike = neighbours::alike(rng, plan)?;
    let ledger = ledgers::begun(rng, limit, &alike);
    Some((alike, ledgers::lend(rng, &ledger)))
}

/// A plan that may be refused, with a ledger of another plan.
fn on_any_plan(rng: &mut Rng, (limit, most_tracks): Given) -> Single {
    let mut single = on_sound(rng, (limit, most_tracks));
    single.plan = damage::any_plan(rng, most_tracks);
    single
}

/// A call that mostly does something where the tracks are sound, else any.
fn fitting_call(rng: &mut Rng, limit: Limit, plan: &Plan, words: &[u16]) -> Call {
    if ledger::is_sound(limit, plan, words) {
        steered_call(rng, plan, &Ledger::decode(limit, plan, words))
    } else {
        any_call(rng, plan)
    }
}

/// Each call equally often, mostly one that would do or find something under
/// the ledger's own plan.
fn telling_call(rng: &mut Rng, plan: &Plan, ledger: &Ledger) -> Call {
    match rng.below(5) {
        0 => steered_event(rng, plan, ledger),
        1 => Call::Signal(journals::signaller(rng, plan, ledger)),
        2 => steered_firing(rng, plan, ledger).unwrap_or(Call::Fire(0, 1)),
        3 => Call::Ready,
        _ => steered_entries(rng, ledger),
    }
}

/// A call that mostly does something.
fn steered_call(rng: &mut Rng, plan: &Plan, ledger: &Ledger) -> Call {
    let choice = rng.below(100);
    match choice {
        0..=59 => steered_event(rng, plan, ledger),
        60..=68 => Call::Signal(journals::signaller(rng, plan, ledger)),
        69..=86 => steered_firing(rng, plan, ledger).unwrap_or(Call::Ready),
        _ => any_call(rng, plan),
    }
}

fn steered_event(rng: &mut Rng, plan: &Plan, ledger: &Ledger) -> Call {
    let hasty = journals::moving_events(plan, ledger, |s| plan.is_final(s));
    let events = journals::moving_events(plan, ledger, |_| true);
    let busiest = journals::busiest(plan, ledger, &hasty).filter(|_| rng.chance(45));
    let hasty = busiest.or_else(|| rng.pick(&hasty).filter(|_| rng.chance(25)));
    let event = hasty.or_else(|| rng.pick(&events));
    let event = event.unwrap_or_else(|| journals::any_event(rng, plan));
    let day = if rng.chance(6) {
        journals::refused_day(rng, ledger)
    } else {
        journals::event_day(rng, plan, ledger, event)
    };
    Call::Event(event, day, journals::mover(rng, plan, ledger, event))
}

/// A firing that is allowed, if there is one.
fn steered_firing(rng: &mut Rng, plan: &Plan, ledger: &Ledger) -> Option<Call> {
    let ready: Vec<usize> = members(rules::ready(plan, ledger)).collect();
    let track = rng.pick(&ready)?;
    let society = journals::firer(rng, plan, &[track]);
    Some(Call::Fire(track as u16, society))
}

/// The entries of a track that holds some; of track 0 where none does.
fn steered_entries(rng: &mut Rng, ledger: &Ledger) -> Call {
    let holds = |&t: &usize| ledger.tracks[t].held() > 0;
    let holding: Vec<usize> = (0..ledger.tracks.len()).filter(holds).collect();
    Call::Entries(rng.pick(&holding).unwrap_or(0) as u16)
}

/// Any call with any argument.
fn any_call(rng: &mut Rng, plan: &Plan) -> Call {
    let track = if rng.chance(85) {
        rng.below(plan.track_count()) as u16
    } else {
        journals::missing_track(rng, plan)
    };
    let day = if rng.chance(80) {
        journals::day_near_windows(rng, plan)
    } else {
        days::outside(rng)
    };
    let society = if rng.chance(85) {
        societies::any(rng, plan)
    } else {
        societies::stranger(rng, plan)
    };
    match rng.below(6) {
        0 if rng.chance(30) => Call::Event(0, day, society),
        0 | 1 => Call::Event(journals::any_event(rng, plan), day, society),
        2 => Call::Signal(society),
        3 => Call::Fire(track, society),
        4 => Call::Ready,
        _ => Call::Entries(track),
    }
}
