//! Cases as lines of text, for comparison with another implementation.
//! Fields are separated by `;`; words are 4 hex digits each. The first field is a
//! letter and the caller's limit; without a number it is the main program's.

use std::fmt::Write;

use crate::generate::damage;
use crate::generate::journals::{self, Case};
use crate::generate::ledgers;
use crate::generate::paths;
use crate::generate::plans;
use crate::generate::rng::Rng;
use crate::generate::singles::{self, Call};
use crate::generate::societies;
use crate::generate::withdrawals;
use crate::samples;
use second::days::Date;
use second::journal::{self, Record};
use second::ledger::{Entry, Ledger, Mode, Track};
use second::limit::Limit;
use second::manager::{self, Answer};
use second::paths::Largest;
use second::plan::{self, Plan, Right, NONE};
use second::rules::{self, Moved};

/// Percent of histories and runs that are short and end half withdrawn.
const HALF_WITHDRAWN: usize = 6;

/// The first field of a line: a letter, and the limit where that is not the main
/// program's.
pub fn mark(letter: &str, limit: Limit) -> String {
    match limit {
        Limit::MAIN => letter.to_string(),
        Limit(entries) => format!("{letter}{entries}"),
    }
}

/// The letter and the limit of a first field.
pub fn letter_and_limit(field: &str) -> Option<(&str, Limit)> {
    match (field.get(..1)?, field.get(1..)?) {
        (letter, "") => Some((letter, Limit::MAIN)),
        (letter, entries) => Some((letter, Limit(entries.parse().ok()?))),
    }
}

/// One of the two settings, and now and then another limit.
fn any_limit(rng: &mut Rng) -> Limit {
    match rng.below(100) {
        0..=44 => Limit::MAIN,
        45..=84 => Limit::READING_ROOM,
        _ => Limit(rng.pick(&[0, 1, 2, 3, 5, 13]).unwrap_or(3)),
    }
}

/// `H;plan;lent words;calls;answers;words after`: a history from begin at a
/// limit, now and then a short one that ends half withdrawn.
pub fn history_line(rng: &mut Rng, most_tracks: usize) -> String {
    let limit = any_limit(rng);
    let (bytes, records) = if rng.chance(HALF_WITHDRAWN) {
        journals::half_withdrawn(rng, limit, most_tracks)
    } else {
        any_history(rng, limit, most_tracks)
    };
    let plan = plan::read(&bytes).expect("a good plan is accepted");
    let lent = ledgers::garbage(rng, limit, &plan);
    let mut words = lent.clone();
    let mut answers = vec![begin(limit, &bytes, &mut words)];
    let calls = named_calls(limit, &plan, &records);
    for &call in &calls {
        answers.push(answer(limit, &bytes, &mut words, call));
    }
    let calls: Vec<String> = calls.into_iter().map(call_text).collect();
    let fields = [
        mark("H", limit),
        byte_hex(&bytes),
        word_hex(&lent),
        calls.join(","),
        answers.join("|"),
        word_hex(&words),
    ];
    fields.join(";")
}

/// `P;plan;answer`: the plan reader on a good or damaged plan.
pub fn plan_line(rng: &mut Rng, most_tracks: usize) -> String {
    let bytes = damage::any_plan(rng, most_tracks);
    let answer = match plan::read(&bytes) {
        Ok(plan) => accepted_text(&plan),
        Err(refusal) => refusal.number().to_string(),
    };
    format!("P;{};{answer}", byte_hex(&bytes))
}

/// The line of a single call.
pub fn single_line(rng: &mut Rng, most_tracks: usize) -> String {
    let limit = any_limit(rng);
    let single = singles::single_at(rng, limit, most_tracks);
    call_line(limit, &single.plan, &single.words, single.call)
}

/// The line of a conversion, which is given no plan and no words.
pub fn conversion_line(rng: &mut Rng) -> String {
    call_line(Limit::MAIN, &[], &[], singles::conversion(rng))
}

/// `L;plan;words;call;answer;words after`: a call on lent words at a limit.
pub fn call_line(limit: Limit, plan: &[u8], lent: &[u16], call: Call) -> String {
    let mut words = lent.to_vec();
    let answer = answer(limit, plan, &mut words, call);
    let (mark, plan, lent) = (mark("L", limit), byte_hex(plan), word_hex(lent));
    let (call, words) = (call_text(call), word_hex(&words));
    format!("{mark};{plan};{lent};{call};{answer};{words}")
}

/// The same of a begin, whose letter is `B`.
pub fn begin_line(limit: Limit, plan: &[u8], lent: &[u16]) -> String {
    let mut words = lent.to_vec();
    let answer = begin(limit, plan, &mut words);
    let (mark, plan, lent) = (mark("L", limit), byte_hex(plan), word_hex(lent));
    format!("{mark};{plan};{lent};B;{answer};{}", word_hex(&words))
}

/// The same of the largest number of entries of a track, whose letter is `M`; it
/// is given no words.
pub fn largest_line(plan: &[u8], track: u16) -> String {
    let answer = figure_text(manager::largest(plan, track));
    format!("L;{};;M{track};{answer};", byte_hex(plan))
}

/// The largest number of entries of a track of a small plan, or of a plan that
/// may be refused; now and then of no track.
pub fn small_largest_line(rng: &mut Rng) -> String {
    let plan = if rng.chance(92) {
        paths::small_plan(rng)
    } else {
        damage::any_plan(rng, 2)
    };
    let tracks = plan::read(&plan).map_or(1, |plan| plan.track_count());
    let track = if rng.chance(90) {
        rng.below(tracks)
    } else {
        rng.pick(&[tracks, 32, 65_535]).unwrap_or(tracks)
    };
    largest_line(&plan, track as u16)
}

/// `U;plan;journal;output`: a whole run of `unwind`, or what the same calls would
/// print at another limit; now and then a short one that ends half withdrawn.
pub fn unwind_line(rng: &mut Rng, most_tracks: usize) -> String {
    let limit = any_limit(rng);
    let case = if rng.chance(HALF_WITHDRAWN) {
        let (plan, records) = journals::half_withdrawn(rng, limit, most_tracks);
        let journal = samples::journal(&records);
        Case { plan, journal }
    } else {
        journals::case(rng, most_tracks)
    };
    let output = journal::unwind_at(limit, &case.plan, &case.journal);
    let (plan, journal) = (byte_hex(&case.plan), byte_hex(&case.journal));
    format!(
        "{};{plan};{journal};{}",
        mark("U", limit),
        byte_hex(&output)
    )
}

/// `W;plan;counts;words;society;tests;held`: of a sound ledger whether no entry
/// held carries a deviation, whether no track is forward, whether the society may
/// turn every forward one, and how many entries are held.
pub fn withdrawal_line(rng: &mut Rng, most_tracks: usize) -> String {
    let limit = any_limit(rng);
    let (bytes, ledger) = withdrawals::small(rng, limit, most_tracks);
    let plan = plan::read(&bytes).expect("a good plan is accepted");
    let society = if rng.chance(80) {
        societies::any(rng, &plan)
    } else {
        societies::stranger(rng, &plan)
    };
    let words = word_hex(&ledgers::lend(rng, &ledger));
    let tests = tests_text(&plan, &ledger, society);
    let (bytes, counts) = (byte_hex(&bytes), accepted_text(&plan));
    let (mark, held) = (mark("W", limit), ledger.total_held());
    format!("{mark};{bytes};{counts};{words};{society};{tests};{held}")
}

/// The three tests, 1 where it is so and 0 where not.
fn tests_text(plan: &Plan, ledger: &Ledger, society: u16) -> String {
    let mut entries = ledger.tracks.iter().flat_map(Track::entries);
    let free = entries.all(|entry| entry.deviation == NONE);
    let forward = |&t: &usize| ledger.tracks[t].mode == Mode::Forward;
    let forward: Vec<usize> = (0..plan.track_count()).filter(forward).collect();
    let turns = |&t: &usize| plan.allows(society, Right::Signal, t);
    let tests = [free, forward.is_empty(), forward.iter().all(turns)];
    tests.map(|test| u8::from(test).to_string()).join(",")
}

/// `O;plan;counts;words;tracks;answer`: whether the tracks can be fired one after
/// the other, rights aside: ready's number and the entries held after that, or
/// `no`.
pub fn order_line(rng: &mut Rng, most_tracks: usize) -> String {
    let limit = any_limit(rng);
    let (bytes, ledger) = withdrawals::small(rng, limit, most_tracks);
    let plan = plan::read(&bytes).expect("a good plan is accepted");
    let tracks = withdrawals::order(rng, &plan, &ledger);
    let words = word_hex(&ledgers::lend(rng, &ledger));
    let answer = order_text(&plan, ledger, &tracks);
    let (bytes, counts) = (byte_hex(&bytes), accepted_text(&plan));
    let tracks: Vec<String> = tracks.iter().map(u16::to_string).collect();
    let (mark, tracks) = (mark("O", limit), tracks.join(","));
    format!("{mark};{bytes};{counts};{words};{tracks};{answer}")
}

/// What firing the tracks leaves.
fn order_text(plan: &Plan, mut ledger: Ledger, tracks: &[u16]) -> String {
    for &track in tracks {
        if rules::fire_freely(plan, &mut ledger, usize::from(track)).is_err() {
            return "no".to_string();
        }
    }
    let ready = rules::ready(plan, &ledger);
    format!("D{ready},{}", ledger.total_held())
}

fn begin(limit: Limit, plan: &[u8], words: &mut [u16]) -> String {
    match manager::begin(limit, plan, words) {
        Answer::Done(()) => "begun".to_string(),
        Answer::Refused(refusal) => format!("R{}", refusal.number()),
    }
}

/// Any plan and a history steered through it.
fn any_history(rng: &mut Rng, limit: Limit, most_tracks: usize) -> (Vec<u8>, Vec<Record>) {
    let bytes = plans::bytes(rng, most_tracks);
    let plan = plan::read(&bytes).expect("a good plan is accepted");
    let records = journals::history(rng, limit, &plan).0;
    (bytes, records)
}

/// A history with each firing under the name of its track.
fn named_calls(limit: Limit, plan: &Plan, records: &[Record]) -> Vec<Call> {
    let mut ledger = rules::begin(limit, plan);
    let mut calls = Vec::new();
    for &record in records {
        calls.push(named_call(plan, &ledger, record));
        journal::perform(plan, &mut ledger, record);
    }
    calls
}

/// The call of a record, a firing of the lowest track under that track's name.
fn named_call(plan: &Plan, ledger: &Ledger, record: Record) -> Call {
    match record {
        Record::Event(event, day, society) => Call::Event(event, day, society),
        Record::Signal(society) => Call::Signal(society),
        Record::Fire(track, society) => Call::Fire(track, society),
        Record::FireLowest(society) => {
            Call::Fire(journal::lowest_ready(plan, ledger, society), society)
        }
    }
}

/// Makes a call at a limit; its answer as text.
pub fn answer(limit: Limit, plan: &[u8], words: &mut [u16], call: Call) -> String {
    match call {
        Call::Event(event, day, society) => {
            moved_text(manager::event(limit, plan, words, event, day, society))
        }
        Call::Signal(society) => number_text(manager::signal(limit, plan, words, society)),
        Call::Fire(track, society) => fired_text(manager::fire(limit, plan, words, track, society)),
        Call::Ready => number_text(manager::ready(limit, plan, words)),
        Call::Entries(track) => word_hex(manager::entries(limit, plan, words, track)),
        Call::DateOfDay(day) => date_text(manager::date_of_day(day)),
        Call::DayOfDate(date) => number_text(manager::day_of_date(date)),
    }
}

/// A call's letter and what it is given, the society last.
pub fn call_text(call: Call) -> String {
    match call {
        Call::Event(event, day, society) => format!("E{event}@{day}:{society}"),
        Call::Signal(society) => format!("S:{society}"),
        Call::Fire(track, society) => format!("F{track}:{society}"),
        Call::Ready => "Y".to_string(),
        Call::Entries(track) => format!("N{track}"),
        Call::DateOfDay(day) => format!("D{day}"),
        Call::DayOfDate(Date { year, month, day }) => format!("G{year}-{month}-{day}"),
    }
}

fn date_text(answer: Answer<Date>) -> String {
    match answer {
        Answer::Done(Date { year, month, day }) => format!("D{year},{month},{day}"),
        Answer::Refused(refusal) => format!("R{}", refusal.number()),
    }
}

fn moved_text(answer: Answer<Moved>) -> String {
    match answer {
        Answer::Done(m) => format!("D{},{}", m.moved, m.closed),
        Answer::Refused(refusal) => format!("R{}", refusal.number()),
    }
}

fn fired_text(answer: Answer<Entry>) -> String {
    match answer {
        Answer::Done(entry) => format!("D{},{}", entry.code, entry.deviation),
        Answer::Refused(refusal) => format!("R{}", refusal.number()),
    }
}

/// The figure alone: its path is free, and so is the path's length.
fn figure_text(answer: Answer<Largest>) -> String {
    match answer {
        Answer::Done(largest) => format!("D{}", largest.figure),
        Answer::Refused(refusal) => format!("R{}", refusal.number()),
    }
}

fn number_text<Number: std::fmt::Display>(answer: Answer<Number>) -> String {
    match answer {
        Answer::Done(number) => format!("D{number}"),
        Answer::Refused(refusal) => format!("R{}", refusal.number()),
    }
}

fn accepted_text(plan: &Plan) -> String {
    let (tracks, states) = (plan.track_count(), plan.state_count());
    let transitions = plan.transition_count();
    let (windows, rights) = (plan.records().windows.len(), plan.records().rights.len());
    format!("A{tracks},{states},{transitions},{windows},{rights}")
}

fn byte_hex(bytes: &[u8]) -> String {
    let mut hex = String::with_capacity(2 * bytes.len());
    for byte in bytes {
        write!(hex, "{byte:02x}").expect("writing to memory");
    }
    hex
}

fn word_hex(words: &[u16]) -> String {
    let mut hex = String::with_capacity(4 * words.len());
    for word in words {
        write!(hex, "{word:04x}").expect("writing to memory");
    }
    hex
}
