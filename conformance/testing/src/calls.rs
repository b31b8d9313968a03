//! The stored calls: each a plan, lent words and a call, and by this program
//! its answer and the words afterwards. They show what no run of `unwind` can
//! show, since it begins its own ledger and keeps it sound: the leading words,
//! and what soundness makes of a finish left to do or of a day out of range;
//! the largest number of entries; conversions; and the reading rooms' limit.

use crate::generate::singles::Call::{self, DateOfDay, DayOfDate, Entries, Ready};
use crate::samples::{
    every_right, looping, rights, sample, sample_records, scoped_links, state, step, track,
    two_links, window, SOCIETY,
};
use crate::vectors;
use second::days::{Date, Term};
use second::ledger::{track_words_mut, words_needed};
use second::limit::Limit;
use second::manager;
use second::plan::{self, Records, Rights, Transition, NONE};
use second::record;

/// Where they stand, from the repository's root.
pub const FILE: &str = "conformance/cases/calls.txt";

/// One stored call: what it shows, and its line.
pub struct Stored {
    pub shows: String,
    pub line: String,
}

/// The whole file: a comment and a line for each.
pub fn text() -> String {
    let lines = |call: Stored| format!("# {}\n{}\n", call.shows, call.line);
    all().into_iter().map(lines).collect()
}

/// Every stored call.
pub fn all() -> Vec<Stored> {
    let parts = [
        begins(),
        own(),
        neighbours(),
        wrong_words(),
        over(),
        unsound(),
        few_words(),
        alike(),
        near_finish(),
        finish_left(),
        tails(),
        windows(),
        days(),
        days_of_ledgers(),
        shared_roots(),
        divided(),
        order_of_28(),
        unfit_rights(),
        without_rights(),
        largest(),
        unbounded(),
        conversions(),
        begins_at_8(),
        work_at_8(),
        room(Limit::READING_ROOM),
        room(Limit::MAIN),
        counts(),
        words_at_8(),
    ];
    parts.into_iter().flatten().collect()
}

/// An event on day 0 by society 1.
fn event(event: u16) -> Call {
    event_on(event, 0)
}

fn event_on(event: u16, day: i32) -> Call {
    Call::Event(event, day, SOCIETY)
}

/// A signal by society 1.
fn signal() -> Call {
    Call::Signal(SOCIETY)
}

/// A firing by society 1.
fn fire(track: u16) -> Call {
    Call::Fire(track, SOCIETY)
}

/// The call as one of another society.
fn by(society: u16, call: Call) -> Call {
    match call {
        Call::Event(event, day, _) => Call::Event(event, day, society),
        Call::Signal(_) => Call::Signal(society),
        Call::Fire(track, _) => Call::Fire(track, society),
        other => other,
    }
}

fn stored(shows: &str, plan: &[u8], words: &[u16], call: Call) -> Stored {
    Stored {
        shows: shows.to_string(),
        line: vectors::call_line(Limit::MAIN, plan, words, call),
    }
}

/// The sample plan P with a change to its records.
fn changed(change: impl FnOnce(&mut Records)) -> Vec<u8> {
    let mut plan = sample_records();
    change(&mut plan);
    plan.encode()
}

/// P with another code: as long, with another sum.
fn other_code() -> Vec<u8> {
    changed(|p| p.transitions[0].code = 60)
}

/// P with one transition more: as many tracks, with another length and sum.
fn longer() -> Vec<u8> {
    changed(|p| p.transitions.push(step(0, 15, 0, 0)))
}

/// Words that were never begun, one more than P needs.
const UNBEGUN: [u16; 206] = [0xA5A5; 206];

/// The words that a begin and then events leave.
fn begun(plan: &[u8], events: &[u16]) -> Vec<u16> {
    let mut words = UNBEGUN.to_vec();
    manager::begin(Limit::MAIN, plan, &mut words);
    for &event in events {
        manager::event(Limit::MAIN, plan, &mut words, event, 0, SOCIETY);
    }
    words
}

/// P's ledger after events 10, 11, 12 and a signal: tracks 1 and 2 may fire.
fn withdrawn() -> Vec<u16> {
    let mut words = begun(&sample(), &[10, 11, 12]);
    manager::signal(Limit::MAIN, &sample(), &mut words, SOCIETY);
    words
}

/// The words with some changed, each given as place and word.
fn with(mut words: Vec<u16>, changes: &[(usize, u16)]) -> Vec<u16> {
    for &(at, word) in changes {
        words[at] = word;
    }
    words
}

fn begins() -> Vec<Stored> {
    let begin = |shows: &str, words: &[u16]| Stored {
        shows: shows.to_string(),
        line: vectors::begin_line(Limit::MAIN, &sample(), words),
    };
    let neighbours = begun(&longer(), &[10, 11]);
    vec![
        begin("P begun: its length 182 and its sum 633 lead", &UNBEGUN),
        begin("a begin takes a neighbour's ledger", &neighbours),
        begin("a begin with one word too few: 17", &UNBEGUN[..204]),
    ]
}

/// The five calls that test the leading words, under a plan.
fn by_each_call(shows: &str, plan: &[u8], words: &[u16]) -> Vec<Stored> {
    let calls = [
        ("event", event(10)),
        ("signal", signal()),
        ("fire", fire(1)),
        ("ready", Ready),
        ("entries", Entries(1)),
    ];
    let call = |(name, call)| stored(&format!("{shows}: {name}"), plan, words, call);
    calls.into_iter().map(call).collect()
}

fn own() -> Vec<Stored> {
    by_each_call("P's ledger under P", &sample(), &withdrawn())
}

fn neighbours() -> Vec<Stored> {
    let words = withdrawn();
    let same_length = "P's ledger under a plan as long, 24";
    let other_length = "P's ledger under a longer plan with as many tracks, 24";
    let mut calls = by_each_call(same_length, &other_code(), &words);
    calls.extend(by_each_call(other_length, &longer(), &words));
    calls
}

fn wrong_words() -> Vec<Stored> {
    let plan = sample();
    let misled = |shows: &str, changes: &[(usize, u16)]| {
        stored(shows, &plan, &with(withdrawn(), changes), Ready)
    };
    vec![
        misled("the length alone is wrong: 24", &[(0, 184)]),
        misled("the sum alone is wrong: 24", &[(1, 634)]),
        misled("the sum's bytes are exchanged: 24", &[(1, 0x7902)]),
        misled("length and sum are exchanged: 24", &[(0, 633), (1, 182)]),
        stored("zeros: 24", &plan, &[0; 205], signal()),
        stored("zeros, event 0: 24", &plan, &[0; 205], event(0)),
    ]
}

fn over() -> Vec<Stored> {
    let words = begun(&sample(), &[10, 11, 12, 14, 13]);
    let before = begun(&sample(), &[10, 11, 12, 14]);
    let own = |shows: &str, call| stored(shows, &sample(), &words, call);
    let other = |shows: &str, call| stored(shows, &other_code(), &words, call);
    let last = "the event that ends P leaves the leading words";
    vec![
        stored(last, &sample(), &before, event(13)),
        own("an over ledger under its plan: 20", signal()),
        own("an over ledger under its plan, ready", Ready),
        other("an over ledger under another plan: 24", signal()),
        other("an over ledger under another plan, event 0: 24", event(0)),
        other("an over ledger under another plan, a firing: 24", fire(0)),
        other("an over ledger under another plan, ready: 24", Ready),
    ]
}

fn unsound() -> Vec<Stored> {
    let words = with(withdrawn(), &[(4, 3)]);
    let other = |shows: &str, call| stored(shows, &other_code(), &words, call);
    vec![
        stored("a mode of 3: 18", &sample(), &words, signal()),
        other("a mode of 3 and another plan: 24", signal()),
        other("a mode of 3 and another plan, entries", Entries(1)),
    ]
}

fn few_words() -> Vec<Stored> {
    let words = withdrawn();
    let few = |shows: &str, plan: &[u8], kept: usize| stored(shows, plan, &words[..kept], signal());
    vec![
        few("one word too few: 17", &sample(), 204),
        few("as many as without a day: 17", &sample(), 203),
        few("as many as the tracks have: 17", &sample(), 201),
        few("the leading words alone: 17", &sample(), 4),
        few("the plan's words alone: 17", &sample(), 2),
        few("one word: 17", &sample(), 1),
        few("no word: 17", &sample(), 0),
        few("one word too few, of another plan: 17", &other_code(), 204),
    ]
}

/// Two roots, whose states are of these tracks.
fn two_roots(tracks: [u16; 4]) -> Vec<u8> {
    let mut states = tracks.map(|t| state(t, 0, 0)).to_vec();
    states[3].last = 1;
    let plan = Records {
        tracks: vec![track(NONE); 2],
        states,
        transitions: vec![step(0, 1, 7, 0)],
        windows: Vec::new(),
        rights: every_right(&[0, 1]),
    };
    plan.encode()
}

fn alike() -> Vec<Stored> {
    let exchanged = changed(|p| {
        p.transitions[2].code = 52;
        p.transitions[3].code = 51;
    });
    let opened = begun(&sample(), &[10]);
    let (roots, moved) = (two_roots([0, 0, 1, 1]), two_roots([0, 1, 0, 1]));
    let mut words = vec![0; 138];
    manager::begin(Limit::MAIN, &roots, &mut words);
    let sound = "P's ledger under a plan alike in both words, two codes exchanged";
    let unsound = "plans alike in both words, two states exchanged";
    vec![
        stored(&format!("{sound}: moves"), &exchanged, &opened, event(11)),
        stored(&format!("{sound}: ready"), &exchanged, &withdrawn(), Ready),
        stored(&format!("{unsound}: own ledger"), &roots, &words, event(1)),
        stored(&format!("{unsound}: 18"), &moved, &words, event(1)),
    ]
}

/// The words that a begin and then calls leave, one more than the plan needs.
fn worked(plan: &[u8], calls: &[Call]) -> Vec<u16> {
    let needed = plan::read(plan).map_or(0, |plan| words_needed(Limit::MAIN, &plan));
    let mut words = vec![0xA5A5; needed + 1];
    manager::begin(Limit::MAIN, plan, &mut words);
    for &call in calls {
        vectors::answer(Limit::MAIN, plan, &mut words, call);
    }
    words
}

/// Root 0 has ended, holding nothing, and root 1 is undoing and holds 60.
fn entry_left(plan: &[u8]) -> Vec<u16> {
    worked(plan, &[event(1), signal(), fire(0), event(3)])
}

/// The words with the start of a track's words changed.
fn with_track(mut words: Vec<u16>, track: usize, own: &[u16]) -> Vec<u16> {
    track_words_mut(Limit::MAIN, &mut words, track)[..own.len()].copy_from_slice(own);
    words
}

/// Ledgers that are not over and a call away from it.
fn near_finish() -> Vec<Stored> {
    let (plan, scoped) = (two_links().encode(), scoped_links(0).encode());
    let entry = entry_left(&plan);
    let spent = worked(&plan, &[event(1), signal(), fire(0), fire(1)]);
    let inner = [event(1), event(5), event(6), signal(), fire(0), event(3)];
    let scope = worked(&scoped, &inner);
    let both = worked(&plan, &[signal()]);
    let on = |shows: &str, words: &[u16], call| stored(shows, &plan, words, call);
    let inside = |shows: &str, call| stored(shows, &scoped, &scope, call);
    vec![
        on("one root ended, one with an entry: ready", &entry, Ready),
        on("one root ended, its last entry fired", &entry, fire(1)),
        on("one root taken back, the other ends", &spent, event(3)),
        inside("one root ended, one with a scope: ready", Ready),
        inside("one root ended, the last scope abandoned", fire(3)),
        on("both roots taken back: ready", &both, Ready),
        on("both roots taken back: signal", &both, signal()),
        on("both roots taken back, a firing: 22", &both, fire(0)),
    ]
}

/// Ledgers with the finish left to do.
fn finish_left() -> Vec<Stored> {
    let plan = two_links().encode();
    let entry = entry_left(&plan);
    let spent = with_track(entry.clone(), 1, &[2, 4, 0, 0, 0]);
    let holding = with_track(spent.clone(), 0, &[1, 2, 1, 51, NONE]);
    let last = with_track(spent.clone(), 1, &[2, 5]);
    let both = with_track(spent.clone(), 1, &[1, 5]);
    let exchanged = with_track(with_track(spent.clone(), 0, &[2, 1]), 1, &[1, 5]);
    let begin = Stored {
        shows: "a begin takes a ledger with the finish left to do".to_string(),
        line: vectors::begin_line(Limit::MAIN, &plan, &spent),
    };
    let left = |shows: &str, words: &[u16]| stored(shows, &plan, words, Ready);
    let mut calls = by_each_call("one root ended, one taken back, 18", &plan, &spent);
    calls.extend([
        left("one root taken back, one ended: 18", &exchanged),
        left("one root ended with an entry, one taken back: 18", &holding),
        left("one root taken back in its final state: 18", &last),
        left("both roots ended: 18", &both),
        begin,
    ]);
    calls
}

/// `looping` with so many transitions, the first with this code.
fn looping_by(transitions: usize, code: u16) -> Vec<u8> {
    let mut plan = looping();
    plan.transitions.push(step(0, 4, 9, 1));
    plan.transitions.truncate(transitions);
    plan.transitions[0].code = code;
    plan.encode()
}

/// Plans that rounds of eight bytes leave 0, 2, 4 and 6 bytes of, and sums that
/// not all of these are in. The code of the last is such that the plan's last
/// word brings the sum past 65,535 once more.
fn tails() -> Vec<Stored> {
    let [four, two, none] = [2, 3, 4].map(|count| looping_by(count, 7));
    let six = looping_by(1, 65_459);
    let begin = |shows: &str, plan: &[u8]| Stored {
        shows: format!("a plan of {} bytes begun: {shows}", plan.len()),
        line: vectors::begin_line(Limit::MAIN, plan, &UNBEGUN[..72]),
    };
    let without = |last: usize, plan: &[u8]| {
        let length = plan.len();
        let shows = format!("a plan of {length} bytes, the last {last} not in the sum: 24");
        let sum = record::sum(&plan[..length - last]);
        stored(&shows, plan, &with(worked(plan, &[]), &[(1, sum)]), Ready)
    };
    let own = "a plan of 54 bytes, its own ledger: event";
    vec![
        begin("none left after rounds of eight", &none),
        begin("2 left after rounds of eight", &two),
        begin("4 left after rounds of eight", &four),
        begin("6 left, the last 2 bring the sum past 65,535 again", &six),
        stored(own, &six, &worked(&six, &[]), event(1)),
        without(2, &two),
        without(4, &four),
        without(2, &six),
        without(6, &six),
    ]
}

/// P with a window of two days for its first transition.
fn windowed() -> Vec<u8> {
    changed(|p| p.windows.push(window(0, 5, 6)))
}

fn windows() -> Vec<Stored> {
    let plan = windowed();
    let words = begun(&plan, &[]);
    let on = |shows: &str, day| stored(shows, &plan, &words, event_on(10, day));
    let begin = Stored {
        shows: "P with a window begun: length 196".to_string(),
        line: vectors::begin_line(Limit::MAIN, &plan, &UNBEGUN),
    };
    let repeated = changed(|p| p.windows = vec![window(0, 5, 6); 2]);
    let refused = "P with a window twice and no word: 25";
    vec![
        begin,
        on("the day before a window moves none, and is kept", 4),
        on("the first day of a window moves", 5),
        on("the last day of a window moves", 6),
        on("the day after a window moves none, and is kept", 7),
        stored(refused, &repeated, &[], event_on(0, i32::MIN)),
    ]
}

/// Words with this last accepted day.
fn on_day(words: Vec<u16>, day: i32) -> Vec<u16> {
    let [low, high] = record::words_of(day);
    with(words, &[(2, low), (3, high)])
}

fn days() -> Vec<Stored> {
    let Term { first, last } = Term::RANGE;
    let plan = sample();
    let begun = begun(&plan, &[]);
    let week = on_day(begun.clone(), 7);
    let over = worked(&plan, &[10, 11, 12, 14, 13].map(event));
    let late = on_day(over.clone(), last);
    let on = |shows: &str, words: &[u16], call| stored(shows, &plan, words, call);
    vec![
        on(
            "the range's first day after a begin",
            &begun,
            event_on(10, first),
        ),
        on(
            "the range's last day after a begin",
            &begun,
            event_on(10, last),
        ),
        on(
            "the day before the range: 26",
            &begun,
            event_on(10, first - 1),
        ),
        on(
            "the day after the range: 26",
            &begun,
            event_on(10, last + 1),
        ),
        on("the least number: 26", &begun, event_on(10, i32::MIN)),
        on("the greatest number: 26", &begun, event_on(10, i32::MAX)),
        on("an equal day", &week, event_on(10, 7)),
        on("a falling day: 26", &week, event_on(10, 6)),
        on("a falling day below 0: 26", &week, event_on(10, -7)),
        on("event 0 on a falling day: 19", &week, event_on(0, 6)),
        on("a signal keeps the day", &week, signal()),
        on("an over ledger, a falling day: 26", &over, event_on(10, -1)),
        on("an over ledger, an equal day: 20", &over, event_on(10, 0)),
        on(
            "an over ledger of the last day: 20",
            &late,
            event_on(10, last),
        ),
        on(
            "an over ledger of the last day, the day before: 26",
            &late,
            event_on(10, last - 1),
        ),
        on("event 0 on a falling day, over: 19", &over, event_on(0, -1)),
    ]
}

/// Ledgers whose day is at an end of the range, or out of it.
fn days_of_ledgers() -> Vec<Stored> {
    let Term { first, last } = Term::RANGE;
    let awake = |shows: &str, day| {
        let shows = format!("a ledger of {shows}");
        stored(&shows, &sample(), &on_day(withdrawn(), day), Ready)
    };
    let over = |shows: &str, day, call| {
        let ended = worked(&sample(), &[10, 11, 12, 14, 13].map(event));
        let shows = format!("an over ledger of {shows}");
        stored(&shows, &sample(), &on_day(ended, day), call)
    };
    let mut calls = after_the_range();
    calls.extend([
        awake("the range's first day: ready", first),
        awake("the range's last day: ready", last),
        awake("the day before the range: 18", first - 1),
        awake("the least number: 18", i32::MIN),
        awake("the greatest number: 18", i32::MAX),
        over("the first day: ready", first, Ready),
        over("the day before the range: 18", first - 1, Ready),
        over("the day after the range: 18", last + 1, signal()),
        over("the greatest number, event 0: 18", i32::MAX, event(0)),
    ]);
    calls
}

/// Every call on a ledger of the day after the range.
fn after_the_range() -> Vec<Stored> {
    let words = on_day(withdrawn(), Term::RANGE.last + 1);
    let shows = "a ledger of the day after the range";
    let other = format!("{shows}, under another plan: 24");
    let begin = Stored {
        shows: "a begin takes a ledger whose day is out of range".to_string(),
        line: vectors::begin_line(Limit::MAIN, &sample(), &words),
    };
    let mut calls = by_each_call(&format!("{shows}, 18"), &sample(), &words);
    calls.push(stored(&other, &other_code(), &words, Ready));
    calls.push(begin);
    calls
}

/// `two_links` with root 0 held by society 1 and root 1 by society 2, and by
/// society 3 with the right to move alone.
fn divided_links() -> Vec<u8> {
    let mut plan = two_links();
    plan.rights = vec![rights(1, 0, 7), rights(2, 1, 7), rights(3, 1, 1)];
    plan.encode()
}

/// Both roots of `divided_links` undoing with an entry each.
fn both_undoing() -> Vec<u16> {
    let calls = [event(1), signal()];
    let both = calls.into_iter().flat_map(|call| [call, by(2, call)]);
    worked(&divided_links(), &both.collect::<Vec<_>>())
}

/// Root 1, which two societies hold, and what each may do.
fn shared_roots() -> Vec<Stored> {
    let plan = divided_links();
    let begun = worked(&plan, &[]);
    let turned = worked(&plan, &[by(2, event(1)), by(2, signal())]);
    let on = |shows: &str, words: &[u16], call| {
        let shows = format!("a root of two societies, {shows}");
        stored(&shows, &plan, words, call)
    };
    vec![
        on("the one moves it", &begun, by(2, event(1))),
        on("the other moves it", &begun, by(3, event(1))),
        on("the one signals", &begun, by(2, signal())),
        on("the other signals: 28", &begun, by(3, signal())),
        on("the one fires", &turned, by(2, fire(1))),
        on("the other fires: 28", &turned, by(3, fire(1))),
    ]
}

/// Two roots of two societies: what the calls of each do, and what they leave.
fn divided() -> Vec<Stored> {
    let plan = divided_links();
    let begun = worked(&plan, &[]);
    let moved = worked(&plan, &[event(1), by(2, event(1))]);
    let ended = worked(&plan, &[event(3)]);
    let half = worked(&plan, &[event(1), signal(), by(2, event(1))]);
    let both = both_undoing();
    let on = |shows: &str, words: &[u16], call| {
        let shows = format!("two roots of two societies, {shows}");
        stored(&shows, &plan, words, call)
    };
    vec![
        on("an event moves one", &begun, event(1)),
        on(
            "an event of the other moves the other",
            &begun,
            by(2, event(1)),
        ),
        on("an event that moves the other's alone", &moved, event(4)),
        on("a signal turns one", &moved, signal()),
        on(
            "a signal of the other turns the other",
            &moved,
            by(2, signal()),
        ),
        on("a signal that turns none", &half, signal()),
        on("a signal finishes", &ended, by(2, signal())),
        on("ready leaves rights aside", &both, Ready),
        on("entries leave rights aside", &both, Entries(1)),
        on("a firing of one's own", &both, fire(0)),
        on("a firing of the other's: 28", &both, fire(1)),
    ]
}

/// What is named before 28, and what after it, of a society without rights.
fn order_of_28() -> Vec<Stored> {
    let stranger = |shows: &str, words: &[u16], call| {
        let shows = format!("a society without rights, {shows}");
        stored(&shows, &sample(), words, by(9, call))
    };
    let begun = begun(&sample(), &[]);
    let full = [&[1, 0, 32][..], &[7, NONE].repeat(32)].concat();
    let full = with_track(begun.clone(), 0, &full);
    let week = on_day(begun.clone(), 7);
    let over = worked(&sample(), &[10, 11, 12, 14, 13].map(event));
    let other = with(begun.clone(), &[(1, 0)]);
    let unsound = with(begun.clone(), &[(4, 3)]);
    vec![
        stranger("an event: 28", &begun, event(10)),
        stranger("a signal: 28", &begun, signal()),
        stranger("a firing of a ready track: 28", &withdrawn(), fire(1)),
        stranger("a firing of a track not ready: 28", &begun, fire(0)),
        stranger("a firing of no track: 22", &begun, fire(3)),
        stranger("ready", &withdrawn(), Ready),
        stranger("entries", &withdrawn(), Entries(1)),
        stranger("an event on a full track: 28", &full, event(10)),
        stored(
            "a full track, by its society: 21",
            &sample(),
            &full,
            event(10),
        ),
        stranger("one word too few: 17", &begun[..204], signal()),
        stranger("another plan's ledger: 24", &other, signal()),
        stranger("a mode of 3: 18", &unsound, signal()),
        stranger("event 0: 19", &begun, event(0)),
        stranger("a falling day: 26", &week, event_on(10, 6)),
        stranger("over, an event: 20", &over, event(10)),
        stranger("over, a signal: 20", &over, signal()),
        stranger("over, a firing: 20", &over, fire(0)),
    ]
}

/// P with these rights.
fn held(rights: &[Rights]) -> Vec<u8> {
    changed(|p| p.rights = rights.to_vec())
}

/// 27, after 25 and before 17.
fn unfit_rights() -> Vec<Stored> {
    let each = |count: u16| (0..count).map(|society| rights(society, 0, 7));
    let of_each = |count: u16| held(&each(count).collect::<Vec<_>>());
    let no_word = |shows: &str, plan: &[u8]| stored(shows, plan, &[], event(0));
    let shut = changed(|p| {
        p.windows = vec![window(5, 0, 0)];
        p.rights = vec![rights(1, 3, 8)];
    });
    let begin = |shows: &str, plan: &[u8]| Stored {
        shows: shows.to_string(),
        line: vectors::begin_line(Limit::MAIN, plan, &UNBEGUN),
    };
    let twice = held(&[rights(1, 0, 7), rights(1, 0, 1)]);
    vec![
        begin("P with 64 rights records begun: length 812", &of_each(64)),
        begin("P with 65 rights records begun: 27", &of_each(65)),
        no_word("P with 65 rights records and no word: 27", &of_each(65)),
        no_word("P with a pair twice and no word: 27", &twice),
        no_word("P with rights over no track: 27", &held(&[rights(1, 3, 7)])),
        no_word(
            "P with rights over a hosted track: 27",
            &held(&[rights(1, 1, 7)]),
        ),
        no_word("P with a sum of 0: 27", &held(&[rights(1, 0, 0)])),
        no_word("P with a sum of 8: 27", &held(&[rights(1, 0, 8)])),
        no_word("P with an unfit window and unfit rights: 25", &shut),
    ]
}

/// P without rights: begun, and nobody's.
fn without_rights() -> Vec<Stored> {
    let plan = held(&[]);
    let words = begun(&plan, &[]);
    let on = |shows: &str, call| stored(&format!("P without rights, {shows}"), &plan, &words, call);
    vec![
        on("an event: 28", event(10)),
        on("a signal: 28", signal()),
        on("a firing: 28", fire(0)),
        on("ready", Ready),
        on("society 0: 28", by(0, event(10))),
        on("society 65535: 28", by(65_535, event(10))),
    ]
}

/// The largest number of entries of a track, asked of a plan alone.
fn largest_of(shows: &str, plan: &[u8], track: u16) -> Stored {
    Stored {
        shows: shows.to_string(),
        line: vectors::largest_line(plan, track),
    }
}

/// One root with so many states, none of them final, and these transitions.
fn one_root(states: usize, transitions: Vec<Transition>) -> Records {
    Records {
        tracks: vec![track(NONE)],
        states: vec![state(0, 0, 0); states],
        transitions,
        windows: vec![],
        rights: every_right(&[0]),
    }
}

/// A way of states, each with so many transitions of this code to the next.
fn way(states: u16, each: u16, code: u16) -> Records {
    let steps = (0..states - 1).flat_map(|s| (1..=each).map(move |e| step(s, e, code, s + 1)));
    one_root(usize::from(states), steps.collect())
}

/// The plan with a track that this state hosts, and with this replacement.
fn hosting(mut plan: Records, host: u16, replacement: u16) -> Vec<u8> {
    plan.states[usize::from(host)].replacement = replacement;
    plan.states.push(state(1, 0, 0));
    plan.tracks.push(track(host));
    plan.encode()
}

fn largest() -> Vec<Stored> {
    let of_p = |track: u16, shows: &str| largest_of(shows, &sample(), track);
    let windowed = changed(|p| {
        p.windows.push(window(3, 5, 5));
        p.rights.clear();
    });
    let fork = || one_root(3, vec![step(0, 1, 0, 1), step(0, 2, 0, 2)]);
    let late = one_root(
        4,
        vec![step(3, 1, 0, 2), step(2, 1, 7, 1), step(0, 1, 0, 3)],
    );
    let first = |replacement| hosting(way(1, 0, 0), 0, replacement);
    let alone = |shows: &str, plan: &[u8]| {
        let shows = format!("largest of a root {shows}");
        largest_of(&shows, plan, 0)
    };
    vec![
        of_p(0, "largest of P, track 0: a code and a replacement"),
        of_p(1, "largest of P, track 1"),
        of_p(2, "largest of P, track 2"),
        of_p(3, "largest of P, no such track"),
        of_p(65_535, "largest of P, track 65535, no such track"),
        largest_of("largest of P with a window, without rights", &windowed, 2),
        alone("of one state", &one_root(1, vec![]).encode()),
        alone("whose first state has a replacement", &first(90)),
        alone("whose first state has replacement 0", &first(0)),
        alone(
            "whose last state has a replacement",
            &hosting(fork(), 2, 90),
        ),
        alone("with one code behind steps without", &late.encode()),
        alone("of 128 states", &way(128, 1, 7).encode()),
        alone("with 2 to the 127th equal paths", &way(128, 2, 7).encode()),
        alone("of 128 states, without codes", &way(128, 1, 0).encode()),
    ]
}

/// 29, after 27, whatever the track.
fn unbounded() -> Vec<Stored> {
    let deviating = changed(|p| p.transitions[0].deviation = 0);
    let looped = changed(|p| p.transitions.push(step(6, 15, 0, 6)));
    let led_back = changed(|p| p.transitions.push(step(1, 15, 0, 0)));
    let apart = one_root(3, vec![step(1, 1, 7, 2), step(2, 1, 7, 1)]);
    let unfit = changed(|p| {
        p.transitions[0].deviation = 0;
        p.rights[0].sum = 8;
    });
    let of = |shows: &str, plan: &[u8], track: u16| {
        let shows = format!("largest of {shows}");
        largest_of(&shows, plan, track)
    };
    vec![
        of("P with a deviation, its own track: 29", &deviating, 0),
        of("P with a deviation, another track: 29", &deviating, 2),
        of("P with a deviation, no such track: 29", &deviating, 3),
        of("P with a self-loop without a code: 29", &looped, 0),
        of("P with a way back without a code: 29", &led_back, 0),
        of("a root with a cycle not reached: 29", &apart.encode(), 0),
        of("P with a deviation and a sum of 8: 27", &unfit, 0),
        of("no bytes: 2", &[], 0),
    ]
}

/// The paper's days and dates, and those that are turned back.
fn conversions() -> Vec<Stored> {
    let Term { first, last } = Term::RANGE;
    let good = [first, first + 59, first + 365, -1, 0, 58, 59, 36_584, last];
    let out = [first - 1, last + 1, i32::MIN, i32::MAX];
    let dates = [
        (1600, 1, 1),
        (1600, 2, 29),
        (1899, 12, 31),
        (1900, 1, 1),
        (1900, 3, 1),
        (2000, 2, 29),
        (2399, 12, 31),
    ];
    let none = [
        (1900, 2, 29),
        (2100, 2, 29),
        (2000, 2, 30),
        (2001, 4, 31),
        (1599, 12, 31),
        (2400, 1, 1),
        (2000, 0, 1),
        (2000, 13, 1),
        (2000, 1, 0),
        (2000, 1, 32),
        (65_535, 65_535, 65_535),
    ];
    let convert = |shows: String, call| stored(&shows, &[], &[], call);
    let day = |refused: &str, day: i32| convert(format!("day {day}{refused}"), DateOfDay(day));
    let date = |refused: &str, (year, month, day): (u16, u16, u16)| {
        let shows = format!("date {year}-{month}-{day}{refused}");
        convert(shows, DayOfDate(Date { year, month, day }))
    };
    let mut calls: Vec<Stored> = good.map(|d| day("", d)).into_iter().collect();
    calls.extend(out.map(|d| day(": 26", d)));
    calls.extend(dates.map(|d| date("", d)));
    calls.extend(none.map(|d| date(": 26", d)));
    calls
}

const READING_ROOM: Limit = Limit::READING_ROOM;

/// A call at a limit.
fn at(limit: Limit, shows: &str, plan: &[u8], words: &[u16], call: Call) -> Stored {
    Stored {
        shows: shows.to_string(),
        line: vectors::call_line(limit, plan, words, call),
    }
}

/// The words that a begin and then calls leave at a limit, with so many beyond.
fn worked_at(limit: Limit, plan: &[u8], calls: &[Call], beyond: usize) -> Vec<u16> {
    let needed = plan::read(plan).map_or(0, |plan| words_needed(limit, &plan));
    let mut words = vec![0xA5A5; needed + beyond];
    manager::begin(limit, plan, &mut words);
    for &call in calls {
        vectors::answer(limit, plan, &mut words, call);
    }
    words
}

fn begins_at_8() -> Vec<Stored> {
    let begin = |shows: &str, words: &[u16]| Stored {
        shows: format!("at limit 8, {shows}"),
        line: vectors::begin_line(READING_ROOM, &sample(), words),
    };
    vec![
        begin("P begun with 61 words", &UNBEGUN[..61]),
        begin("P begun, words beyond as they were", &UNBEGUN[..64]),
        begin("P begun with as many words as at 32", &UNBEGUN),
        begin("a begin takes a ledger of limit 32", &withdrawn()),
        begin("a begin with one word too few: 17", &UNBEGUN[..60]),
    ]
}

/// P's ledger at 8 and the calls on it.
fn work_at_8() -> Vec<Stored> {
    let after = |calls: &[Call]| worked_at(READING_ROOM, &sample(), calls, 3);
    let turned = after(&[event(10), event(11), event(12), signal()]);
    let closed = after(&[10, 11, 12, 14].map(event));
    let on = |shows: &str, words: &[u16], call| {
        let shows = format!("P at limit 8, {shows}");
        at(READING_ROOM, &shows, &sample(), words, call)
    };
    vec![
        on("an event", &after(&[event(10)]), event(11)),
        on("a closing", &after(&[10, 11, 12].map(event)), event(14)),
        on("a finish", &closed, event(13)),
        on("a signal", &after(&[10, 11, 12].map(event)), signal()),
        on("a signal that abandons", &after(&[event(10)]), signal()),
        on("ready", &turned, Ready),
        on("a firing", &turned, fire(1)),
        on("a firing of a host that waits: 22", &turned, fire(0)),
        on("entries of track 0", &closed, Entries(0)),
        on("entries of track 1", &turned, Entries(1)),
        on("entries of track 2", &turned, Entries(2)),
        on("entries of no track", &turned, Entries(3)),
        on(
            "over: 20",
            &after(&[10, 11, 12, 14, 13].map(event)),
            signal(),
        ),
    ]
}

/// `looping` with a hosting state, entered by event 4, whose branch ends by
/// event 5 and which then has replacement 90.
fn looping_host() -> Vec<u8> {
    let mut plan = looping();
    plan.tracks.push(track(2));
    plan.states.push(state(0, 0, 90));
    plan.states.extend([state(1, 0, 0), state(1, 1, 0)]);
    plan.transitions.push(step(0, 4, 0, 2));
    plan.transitions.push(step(3, 5, 0, 4));
    plan.encode()
}

/// A track that holds one entry fewer than the limit allows, and as many.
fn room(limit: Limit) -> Vec<Stored> {
    let (plan, host) = (looping().encode(), looping_host());
    let most = limit.entries();
    let holding = |held: usize| worked_at(limit, &plan, &vec![event(1); held], 2);
    let hosting = |held: usize| {
        let calls = [&vec![event(1); held][..], &[event(4)]].concat();
        worked_at(limit, &host, &calls, 2)
    };
    let turned = worked_at(
        limit,
        &plan,
        &[&vec![event(1); most][..], &[signal()]].concat(),
        2,
    );
    let on = |shows: &str, plan: &[u8], words: &[u16], call| {
        let shows = format!("room at limit {most}, {shows}");
        at(limit, &shows, plan, words, call)
    };
    let (nearly, full) = (holding(most - 1), holding(most));
    vec![
        on("the last entry installs", &plan, &nearly, event(1)),
        on("one entry more: 21", &plan, &full, event(1)),
        on("an entry that the finish drops: 21", &plan, &full, event(2)),
        on(
            "the last entry is dropped by the finish",
            &plan,
            &nearly,
            event(2),
        ),
        on("a full track moves without a code", &plan, &full, event(3)),
        on(
            "the last entry is a replacement",
            &host,
            &hosting(most - 1),
            event(5),
        ),
        on("a replacement more: 21", &host, &hosting(most), event(5)),
        on("a full track turns", &plan, &full, signal()),
        on("a full track is ready", &plan, &turned, Ready),
        on("a full track fires", &plan, &turned, fire(0)),
        on("entries of a full track", &plan, &full, Entries(0)),
        on("entries of a track nearly full", &plan, &nearly, Entries(0)),
    ]
}

/// Counts at both limits, with a good pair wherever one may stand.
fn counts() -> Vec<Stored> {
    let counted = |limit: Limit, count: u16, shows: &str, call| {
        let plan = looping().encode();
        let mut words = worked_at(limit, &plan, &[], 50);
        words[7..]
            .chunks_exact_mut(2)
            .for_each(|pair| pair.copy_from_slice(&[7, NONE]));
        words[6] = count;
        let shows = format!("a count of {count} at limit {}{shows}", limit.0);
        at(limit, &shows, &plan, &words, call)
    };
    vec![
        counted(READING_ROOM, 8, "", Ready),
        counted(READING_ROOM, 9, ": 18", Ready),
        counted(READING_ROOM, 9, ", event: 18", event(3)),
        counted(READING_ROOM, 9, ", signal: 18", signal()),
        counted(READING_ROOM, 9, ", firing: 18", fire(0)),
        counted(READING_ROOM, 9, ", entries", Entries(0)),
        counted(READING_ROOM, 32, ": 18", Ready),
        counted(READING_ROOM, 33, ": 18", Ready),
        counted(Limit::MAIN, 32, "", Ready),
        counted(Limit::MAIN, 33, ": 18", Ready),
    ]
}

/// Words too few, unused or beyond at limit 8.
fn words_at_8() -> Vec<Stored> {
    let words = worked_at(READING_ROOM, &sample(), &[event(10), event(11)], 150);
    let on = |shows: &str, words: &[u16], call| {
        let shows = format!("at limit 8, {shows}");
        at(READING_ROOM, &shows, &sample(), words, call)
    };
    let soiled = |place: usize| with(words.clone(), &[(place, 1)]);
    vec![
        on("as many words as needed", &words[..61], event(12)),
        on("one word too few: 17", &words[..60], event(12)),
        on("one word too few, ready: 17", &words[..60], Ready),
        on("one word too few, entries", &words[..60], Entries(0)),
        on("words beyond as they were", &words, event(12)),
        on("track 0's last unused word: 18", &soiled(22), Ready),
        on("track 2's last unused word: 18", &soiled(60), Ready),
        on("a word beyond is not judged", &soiled(61), Ready),
        on(
            "another plan's ledger: 24",
            &with(words.clone(), &[(1, 0)]),
            Ready,
        ),
    ]
}
