//! The fast program against the second one: the same answers, the same words
//! and the same texts, on input made from fixed seeds, at both limits and some
//! others, and on ledgers that are read at another limit than their own.

use bench::fast::limit::{self, Main, ReadingRoom};
use bench::fast::run;
use bench::sides::{self, Call};
use second::days::{Date, Term};
use second::journal::{self, Record};
use second::ledger::{Entry, Ledger, Mode, Track, LEADING_WORDS};
use second::limit::Limit;
use second::plan::{self, Rights, MAX_RIGHTS, MAX_TRACKS, NONE};
use testing::generate::rng::Rng;
use testing::generate::{damage, days, journals, ledgers, neighbours, plans, singles, societies};
use testing::samples::{every_right, looping, rights, state, step, track, window, SOCIETY};

/// The main program's limit, at which plans are tried.
const MAIN: Limit = Limit::MAIN;

/// A limit that neither program is used at.
enum Other<const ENTRIES: u16> {}

impl<const ENTRIES: u16> limit::Limit for Other<ENTRIES> {
    const ENTRIES: u16 = ENTRIES;
}

/// The call by the fast program, which has these limits compiled in.
fn fast(limit: Limit, plan: &[u8], words: &mut [u16], call: Call) -> u64 {
    match limit {
        Limit::MAIN => sides::fast_at::<Main>(plan, words, call),
        Limit::READING_ROOM => sides::fast_at::<ReadingRoom>(plan, words, call),
        Limit(0) => sides::fast_at::<Other<0>>(plan, words, call),
        Limit(1) => sides::fast_at::<Other<1>>(plan, words, call),
        Limit(3) => sides::fast_at::<Other<3>>(plan, words, call),
        Limit(100) => sides::fast_at::<Other<100>>(plan, words, call),
        Limit(u16::MAX) => sides::fast_at::<Other<{ u16::MAX }>>(plan, words, call),
        Limit(other) => panic!("limit {other} is not compiled in"),
    }
}

/// Makes the call by both on copies of the words; the answer, and the words
/// afterwards.
fn agreed(limit: Limit, plan: &[u8], words: &[u16], call: Call, case: u64) -> (u64, Vec<u16>) {
    let (mut expected, mut found) = (words.to_vec(), words.to_vec());
    let answer = sides::second_at(plan, &mut expected, call, limit);
    assert_eq!(
        fast(limit, plan, &mut found, call),
        answer,
        "the answer of {call:?} in case {case} at {limit:?}"
    );
    assert!(
        found == expected,
        "the words after {call:?} in case {case} at {limit:?}"
    );
    (answer, expected)
}

/// Every call with arguments that may do something, or nothing.
fn calls(rng: &mut Rng, plan: &[u8], call: singles::Call) -> [Call; 7] {
    let own = match call {
        singles::Call::Event(event, day, society) => Call::Event(event, day, society),
        singles::Call::Signal(society) => Call::Signal(society),
        singles::Call::Fire(track, society) => Call::Fire(track, society),
        singles::Call::Ready => Call::Ready,
        singles::Call::Entries(track) => Call::Entries(track),
        singles::Call::DateOfDay(day) => Call::DateOfDay(day),
        singles::Call::DayOfDate(date) => Call::DayOfDate(date),
    };
    let event = rng.between(1, 12) as u16;
    let day = days::any_day(rng);
    let track = |rng: &mut Rng| rng.below(8) as u16;
    let society = |rng: &mut Rng| match plan::read(plan) {
        Ok(plan) if rng.chance(80) => societies::any(rng, &plan),
        _ => rng.below(4) as u16,
    };
    [
        own,
        Call::Begin,
        Call::Event(event, day, society(rng)),
        Call::Signal(society(rng)),
        Call::Fire(track(rng), society(rng)),
        Call::Ready,
        Call::Entries(track(rng)),
    ]
}

/// How often each refusal is answered to single calls: accepted and refused
/// plans; sound, damaged and too short ledgers, those of other plans and those
/// made at other limits. The calls are at the limit that they are made for.
fn refused(limit: Limit, stream: u64, singles: u64) -> [u64; 29] {
    let mut refused = [0; 29];
    for index in 0..singles {
        let mut rng = Rng::for_case(31, stream, index);
        let single = singles::single_at(&mut rng, limit, MAX_TRACKS);
        for call in calls(&mut rng, &single.plan, single.call) {
            let (answer, _) = agreed(limit, &single.plan, &single.words, call, index);
            if !matches!(call, Call::Entries(_)) {
                refused[usize::from(answer as u16)] += 1;
            }
        }
    }
    refused
}

/// Half a million at each limit: every refusal of a call is among the answers.
#[test]
fn a_million_single_calls() {
    for (limit, stream) in Limit::SETTINGS.into_iter().zip([1, 7]) {
        let refused = refused(limit, stream, 72_000);
        for number in (2..=22).chain(24..=28) {
            let times = refused[number];
            assert!(times >= 100, "{number} at {limit:?}: {times}");
        }
        assert!(refused[24] >= 20_000, "24 at {limit:?}: {}", refused[24]);
        assert!(refused[28] >= 10_000, "28 at {limit:?}: {}", refused[28]);
    }
}

/// Limits that neither program is used at.
#[test]
fn single_calls_at_other_limits() {
    for (limit, stream) in [Limit(1), Limit(3), Limit(100)].into_iter().zip(8..) {
        let refused = refused(limit, stream, 3_000);
        for number in [17, 18, 20, 21, 22, 24] {
            let times = refused[number];
            assert!(times >= 5, "{number} at {limit:?}: {times}");
        }
    }
}

/// Words that are called on at either limit, whichever they were made for: those
/// of single calls, mostly longer than they were made.
#[test]
fn ledgers_read_across_limits() {
    let (mut accepted, mut refused) = (0, [0; 29]);
    for index in 0..20_000 {
        let mut rng = Rng::for_case(31, 6, index);
        let most_tracks = rng.pick(&[1, 1, 2, MAX_TRACKS]).unwrap_or(1);
        let single = singles::single(&mut rng, most_tracks);
        let across = match single.limit {
            MAIN => Limit::READING_ROOM,
            _ => MAIN,
        };
        let mut words = single.words.clone();
        let beyond = across.track_start(most_tracks) - LEADING_WORDS;
        words.resize(words.len() + rng.pick(&[0, beyond]).unwrap_or(0), 0);
        for call in calls(&mut rng, &single.plan, single.call) {
            let (answer, _) = agreed(across, &single.plan, &words, call, index);
            let number = usize::from(answer as u16);
            match call {
                Call::Entries(_) | Call::Begin => {}
                _ if number == 0 => accepted += 1,
                _ => refused[number] += 1,
            }
        }
    }
    assert!(accepted >= 500, "{accepted}");
    for number in [17, 18, 20, 21, 22, 24, 28] {
        let times = refused[number];
        assert!(times >= 5, "{number}: {times}");
    }
}

/// A track of the greatest limit and of none: what it holds, and when it is
/// full.
#[test]
fn limits_that_a_word_can_count() {
    let bytes = looping().encode();
    let plan = plan::read(&bytes).expect("accepted");
    for (limit, held) in [
        (0, 0),
        (1, 0),
        (1, 1),
        (u16::MAX, u16::MAX - 1),
        (u16::MAX, u16::MAX),
    ] {
        let entry = Entry {
            code: 7,
            deviation: NONE,
        };
        let mut ledger = Ledger::asleep(Limit(limit), &plan);
        ledger.tracks[0] = Track::awake(Mode::Forward, 0);
        (0..held).for_each(|_| ledger.tracks[0].install(entry));
        let words = ledger.words();
        let at = |words: &[u16], call: Call| agreed(Limit(limit), &bytes, words, call, held.into());
        assert_eq!(at(&words, Call::Begin).0, 0);
        let (answer, _) = at(&words, event(1));
        assert_eq!(answer, if held == limit { 21 } else { 1 << 16 });
        let shown = at(&words, Call::Entries(0)).0;
        assert_eq!(shown as u16, held.wrapping_mul(2));
        let (turned, undoing) = at(&words, signal());
        assert_eq!(turned, 1 << 16);
        let (fired, _) = at(&undoing, fire(0));
        assert_eq!(fired as u16, if held == 0 { 22 } else { 0 });
        assert_eq!(at(&words[..words.len() - 1], Call::Ready).0, 17);
    }
}

/// Ledgers that go on from call to call, from a begin on any words, at either
/// limit. Now and then a neighbour's plan is given: 24, and the history goes on;
/// or the call is made at the other limit. Some end half withdrawn, in a firing
/// or in a signal.
#[test]
fn calls_of_histories() {
    let (mut ending_firings, mut ending_signals) = (0, 0);
    for index in 0..10_000 {
        let mut rng = Rng::for_case(31, 2, index);
        let [limit, other] = match index % 2 {
            0 => [MAIN, Limit::READING_ROOM],
            _ => [Limit::READING_ROOM, MAIN],
        };
        let bytes = plans::bytes(&mut rng, MAX_TRACKS);
        let plan = plan::read(&bytes).expect("accepted");
        let neighbour = neighbours::neighbour(&mut rng, &plan).records().encode();
        let needed = limit.track_start(plan.track_count());
        let words = ledgers::garbage(&mut rng, limit, &plan);
        let (_, mut words) = agreed(limit, &bytes, &words, Call::Begin, index);
        for record in journals::history(&mut rng, limit, &plan).0 {
            let call = match record {
                Record::Event(event, day, society) => Call::Event(event, day, society),
                Record::Signal(society) => Call::Signal(society),
                Record::Fire(track, society) => Call::Fire(track, society),
                Record::FireLowest(society) => {
                    Call::Fire(lowest_ready(limit, &bytes, &words), society)
                }
            };
            if rng.chance(10) {
                assert_eq!(agreed(limit, &neighbour, &words, call, index).0, 24);
            }
            if rng.chance(10) {
                agreed(other, &bytes, &words, call, index);
            }
            let (answer, after) = agreed(limit, &bytes, &words, call, index);
            let ended = answer as u16 == 0 && are_over(&after[..needed]);
            ending_firings += usize::from(ended && matches!(call, Call::Fire(..)));
            ending_signals += usize::from(ended && matches!(call, Call::Signal(_)));
            words = after;
        }
    }
    assert!(ending_firings >= 50, "{ending_firings}");
    assert!(ending_signals >= 50, "{ending_signals}");
}

fn lowest_ready(limit: Limit, plan: &[u8], words: &[u16]) -> u16 {
    let ready = sides::second_at(plan, &mut words.to_vec(), Call::Ready, limit);
    (ready >> 32).trailing_zeros() as u16
}

/// Each refusal 2 to 16, 25 and 27, several at once, and bytes gone astray.
#[test]
fn damaged_plans() {
    for index in 0..20_000 {
        let mut rng = Rng::for_case(31, 3, index);
        let plan = damage::any_plan(&mut rng, MAX_TRACKS);
        let words = vec![0; MAIN.track_start(MAX_TRACKS)];
        agreed(MAIN, &plan, &words, Call::Begin, index);
    }
}

/// A transition that repeats another's source and event, among many of one
/// state and in any order.
#[test]
fn repeated_events_of_a_wide_state() {
    for index in 0..400 {
        let mut rng = Rng::for_case(31, 4, index);
        let records = wide(&mut rng);
        let words = vec![0; MAIN.track_start(records.tracks.len())];
        agreed(MAIN, &records.encode(), &words, Call::Begin, index);
    }
}

/// A root with 256 steps out of its first state, mostly on events of its own.
fn wide(rng: &mut Rng) -> plan::Records {
    let mut records = looping();
    records.transitions = (1..=256).map(|n| step(0, n * 255, 7, 0)).collect();
    rng.shuffle(&mut records.transitions);
    if rng.chance(50) {
        let event = records.transitions[rng.below(256)].event;
        records.transitions[rng.below(256)].event = event;
    }
    records
}

/// More windows than a plan may have, by far: 25, but 8 to 16 come first.
#[test]
fn thousands_of_windows() {
    let mut records = looping();
    records.windows = vec![window(0, 0, 9); 70_000];
    let words = vec![0; MAIN.track_start(1)];
    assert_eq!(
        agreed(MAIN, &records.encode(), &words, Call::Begin, 0).0,
        25
    );
    records.transitions[1].event = 1;
    assert_eq!(
        agreed(MAIN, &records.encode(), &words, Call::Begin, 1).0,
        15
    );
}

/// Rights records up to the 64th and beyond, by far, in any order: 27, but 8 to
/// 16 and 25 come first. One of them may repeat another's pair.
#[test]
fn thousands_of_rights() {
    let words = vec![0; MAIN.track_start(1)];
    for index in 0..2_000 {
        let mut rng = Rng::for_case(33, 1, index);
        let mut records = looping();
        let count = match rng.below(10) {
            0..=6 => rng.between(1, MAX_RIGHTS),
            7 | 8 => MAX_RIGHTS + rng.below(3),
            _ => 3_000,
        };
        let from = rng.word();
        let society = |n: usize| from.wrapping_add(n as u16).wrapping_mul(40_503);
        records.rights = (0..count).map(|n| rights(society(n), 0, 7)).collect();
        rng.shuffle(&mut records.rights);
        let mut fits = count <= MAX_RIGHTS;
        if rng.chance(50) {
            let (first, second) = (rng.below(count), rng.below(count));
            records.rights[first].society = records.rights[second].society;
            fits &= first == second;
        }
        let expected = if fits { 0 } else { 27 };
        let answer = agreed(MAIN, &records.encode(), &words, Call::Begin, index).0;
        assert_eq!(answer, expected, "case {index}");
        records.windows = vec![window(0, 0, 9); 2];
        assert_eq!(
            agreed(MAIN, &records.encode(), &words, Call::Begin, index).0,
            25
        );
        records.transitions[1].event = 1;
        assert_eq!(
            agreed(MAIN, &records.encode(), &words, Call::Begin, index).0,
            15
        );
    }
}

/// Every root number and every sum about the borders, over the two roots of a
/// plan with a hosted track.
#[test]
fn roots_and_sums_of_rights() {
    let words = vec![0; MAIN.track_start(3)];
    let mut accepted = 0;
    for root in (0..40).chain([255, 256, 65_534, NONE]) {
        for sum in (0..20).chain([255, 256, 257, 263, 65_535]) {
            let mut records = scoped_roots();
            records.rights = vec![rights(9, 1, 2), rights(7, root, sum)];
            let answer = agreed(MAIN, &records.encode(), &words, Call::Begin, 0).0;
            accepted += usize::from(answer == 0);
        }
    }
    assert_eq!(accepted, 14);
}

/// Roots whose one state hosts the next track, a chain of four each, and 64
/// societies with rights over some: whom each of them may fire.
#[test]
fn families_of_many_societies() {
    let mut records = plan::Records::default();
    for number in 0..MAX_TRACKS as u16 {
        let host = if number % 4 == 0 { NONE } else { number - 1 };
        records.tracks.push(track(host));
        records.states.push(state(number, 0, 0));
    }
    let society = |n: u16| rights(n / 3, 4 * (n % 8), 1 + n % 7);
    records.rights = (0..MAX_RIGHTS as u16).map(society).collect();
    let bytes = records.encode();
    let words = vec![0; MAIN.track_start(MAX_TRACKS)];
    let begun = agreed(MAIN, &bytes, &words, Call::Begin, 0).1;
    let mut allowed = 0;
    for society in 0..24 {
        for track in 0..34 {
            let (answer, _) = agreed(MAIN, &bytes, &begun, Call::Fire(track, society), 0);
            allowed += usize::from(answer == 22 && track < 32);
        }
        agreed(MAIN, &bytes, &begun, Call::Event(1, 0, society), 0);
        agreed(MAIN, &bytes, &begun, Call::Signal(society), 0);
    }
    let fires = |r: &&Rights| r.sum & 4 != 0;
    assert_eq!(allowed, 4 * records.rights.iter().filter(fires).count());
}

/// A root that loops by each of 256 events, all with windows, in any order: the
/// days about each end of each window, and each event on the last accepted day.
#[test]
fn days_about_every_window() {
    let mut rng = Rng::new(32);
    let mut records = looping();
    records.transitions = (1..=256).map(|event| step(0, event, 0, 0)).collect();
    let windows = (0..256).map(|number| plan::Window {
        transition: number,
        term: days::term(&mut Rng::for_case(32, 1, u64::from(number)), 0),
    });
    records.windows = windows.collect();
    rng.shuffle(&mut records.windows);
    let bytes = records.encode();
    let begun = agreed(MAIN, &bytes, &vec![0; MAIN.track_start(1)], Call::Begin, 0).1;
    let (mut taken, mut ignored) = (0, 0);
    for window in &records.windows {
        let event = window.transition + 1;
        let Term { first, last } = window.term;
        for day in [first - 1, first, last, last + 1] {
            let (answer, after) = agreed(MAIN, &bytes, &begun, Call::Event(event, day, SOCIETY), 0);
            taken += usize::from(answer == 1 << 16);
            ignored += usize::from(answer == 0);
            agreed(MAIN, &bytes, &after, Call::Event(event, day, SOCIETY), 1);
            agreed(
                MAIN,
                &bytes,
                &after,
                Call::Event(event, day - 1, SOCIETY),
                2,
            );
        }
    }
    assert!(taken == 512 && ignored >= 300, "{taken} {ignored}");
}

/// Every day of the range and about it, there and back, and every date of its
/// years and about them.
#[test]
fn days_and_dates() {
    let agreed = |call: Call| {
        let answer = sides::second_at(&[], &mut [], call, MAIN);
        assert_eq!(fast(MAIN, &[], &mut [], call), answer, "{call:?}");
        usize::from(answer as u16 == 0)
    };
    let Term { first, last } = Term::RANGE;
    let near = (first - 1_000..=last + 1_000).chain([i32::MIN, i32::MAX]);
    let found: usize = near.map(|day| agreed(Call::DateOfDay(day))).sum();
    assert_eq!(found, 292_194);
    let mut found = 0;
    for year in (1590..=2410).chain([0, 1, 400, 65_535]) {
        for month in (0..=14).chain([65_535]) {
            for day in (0..=33).chain([65_535]) {
                found += agreed(Call::DayOfDate(Date { year, month, day }));
            }
        }
    }
    assert_eq!(found, 292_194);
}

/// Whole runs, text for text.
#[test]
fn texts_of_journals() {
    for index in 0..20_000 {
        let case = journals::case(&mut Rng::for_case(31, 5, index), MAX_TRACKS);
        let expected = journal::unwind(&case.plan, &case.journal);
        let found = run::unwind(&case.plan, &case.journal);
        assert!(found == expected, "the text of case {index}");
    }
}

/// Two roots. Root 0 goes through state 1, which hosts track 2, to its end on
/// event 3. Root 1 holds code 60 after event 1, which when fired sends it back
/// to its first state, and ends on event 6.
fn scoped_roots() -> plan::Records {
    let deviating = plan::Transition {
        deviation: 3,
        ..step(3, 1, 60, 3)
    };
    plan::Records {
        tracks: [NONE, NONE, 1].map(track).to_vec(),
        states: vec![
            state(0, 0, 0),
            state(0, 0, 90),
            state(0, 1, 0),
            state(1, 0, 0),
            state(1, 1, 0),
            state(2, 0, 0),
            state(2, 1, 0),
        ],
        transitions: vec![
            step(0, 1, 50, 1),
            step(0, 2, 0, 1),
            step(1, 3, 0, 2),
            deviating,
            step(3, 6, 61, 4),
            step(5, 4, 51, 5),
            step(5, 5, 0, 6),
        ],
        windows: vec![],
        rights: every_right(&[0, 1]),
    }
}

/// The same, each root held by another society as well.
fn held_roots() -> plan::Records {
    let mut records = scoped_roots();
    let own = [rights(OF_ROOT_0, 0, 7), rights(OF_ROOT_1, 1, 7)];
    records.rights.extend(own);
    records
}

/// The societies that hold one root each.
const OF_ROOT_0: u16 = 2;
const OF_ROOT_1: u16 = 3;

/// Events, signals and firings by society 1.
fn event(event: u16) -> Call {
    Call::Event(event, 0, SOCIETY)
}

fn signal() -> Call {
    Call::Signal(SOCIETY)
}

fn fire(track: u16) -> Call {
    Call::Fire(track, SOCIETY)
}

/// Whether the tracks of these words are all asleep.
fn are_over(words: &[u16]) -> bool {
    words[LEADING_WORDS..].iter().all(|&word| word == 0)
}

/// The words after a begin and the calls, each given with its two figures.
fn after(limit: Limit, bytes: &[u8], calls: &[(Call, u16, u16)]) -> Vec<u16> {
    let words = vec![0; limit.track_start(3)];
    let (_, mut words) = agreed(limit, bytes, &words, Call::Begin, 0);
    for (&(call, first, second), place) in calls.iter().zip(1..) {
        assert!(!are_over(&words), "over before {call:?}");
        let (answer, next) = agreed(limit, bytes, &words, call, place);
        let figures = u64::from(first) << 16 | u64::from(second) << 32;
        assert_eq!(answer, figures, "the figures of {call:?}");
        words = next;
    }
    words
}

/// Every call that an over ledger refuses.
fn is_over(limit: Limit, bytes: &[u8], words: &[u16]) {
    assert!(are_over(words));
    for call in [event(1), signal(), fire(0), fire(1)] {
        assert_eq!(agreed(limit, bytes, words, call, 0).0, 20, "{call:?}");
    }
    assert_eq!(agreed(limit, bytes, words, Call::Ready, 0).0, 0);
}

/// At both limits the ledger is over after a begin and the calls.
fn end(bytes: &[u8], calls: &[(Call, u16, u16)]) {
    for limit in Limit::SETTINGS {
        is_over(limit, bytes, &after(limit, bytes, calls));
    }
}

/// Root 0 is taken back, root 1 deviates and ends; whichever comes last ends
/// the link. A branch's last firing does so, too.
#[test]
fn links_that_end_half_withdrawn() {
    let bytes = scoped_roots().encode();
    let begun = [(event(1), 2, 0), (signal(), 3, 0)];
    let ended = [(fire(1), 60, 3), (event(6), 1, 0)];
    let taken_back = [(fire(0), 50, NONE)];
    end(&bytes, &[&begun[..], &ended, &taken_back].concat());
    end(&bytes, &[&begun[..], &taken_back, &ended].concat());
    let branch = [
        (event(2), 1, 0),
        (event(1), 1, 0),
        (event(4), 1, 0),
        (signal(), 3, 0),
    ];
    let branch_taken_back = [(fire(2), 51, NONE)];
    end(&bytes, &[&branch[..], &ended, &branch_taken_back].concat());
}

/// Where every root is taken back nothing has ended.
#[test]
fn a_link_withdrawn_as_a_whole_is_not_over() {
    let bytes = scoped_roots().encode();
    let calls = [
        (event(1), 2, 0),
        (signal(), 3, 0),
        (fire(0), 50, NONE),
        (fire(1), 60, 3),
        (signal(), 1, 0),
        (signal(), 0, 0),
        (Call::Ready, 0, 0),
    ];
    for limit in Limit::SETTINGS {
        let words = after(limit, &bytes, &calls);
        assert!(!are_over(&words));
        assert_eq!(agreed(limit, &bytes, &words, fire(0), 0).0, 22);
    }
}

/// Root 1 has ended, and is another society's: the signal that takes back root 0
/// ends the link, if root 0 and its branch hold nothing.
#[test]
fn a_signal_over_one_root_ends_the_link() {
    let bytes = held_roots().encode();
    let by = |number, society| Call::Event(number, 0, society);
    let ended = (by(6, OF_ROOT_1), 1, 0);
    let taken_back = |turned| (Call::Signal(OF_ROOT_0), turned, 0);
    end(&bytes, &[ended, taken_back(1)]);
    end(&bytes, &[(by(2, OF_ROOT_0), 1, 0), ended, taken_back(2)]);
    let held = [(by(1, OF_ROOT_0), 1, 0), ended, taken_back(2)];
    for limit in Limit::SETTINGS {
        let words = after(limit, &bytes, &held);
        assert!(!are_over(&words));
        let fired = |society| agreed(limit, &bytes, &words, Call::Fire(0, society), 0);
        assert_eq!(fired(OF_ROOT_1).0, 28);
        is_over(limit, &bytes, &fired(OF_ROOT_0).1);
    }
}

/// Every way in which a track can stand: asleep, or awake in one of its states
/// in either mode, holding nothing or one entry with one of the deviations.
fn standings(states: &[u16], deviations: &[u16]) -> Vec<Track> {
    let mut standings = vec![Track::ASLEEP];
    for &state in states {
        for mode in [Mode::Forward, Mode::Undoing] {
            standings.push(Track::awake(mode, state));
            standings.extend(deviations.iter().map(|&deviation| {
                let mut holding = Track::awake(mode, state);
                holding.install(Entry { code: 7, deviation });
                holding
            }));
        }
    }
    standings
}

/// Every ledger of the two roots whose tracks hold at most one entry: 2,223, of
/// which 337 are sound. 33 events end the link, 15 of them half withdrawn, and
/// 21 firings do. No signal over both roots does. Of those over one root nine
/// take back root 0 with root 1 at its end, and three the other way round. It is
/// the same at both limits.
#[test]
fn every_small_ledger_of_scoped_roots() {
    for limit in Limit::SETTINGS {
        every_small_ledger(limit);
    }
}

fn every_small_ledger(limit: Limit) {
    let bytes = held_roots().encode();
    let plan = plan::read(&bytes).expect("accepted");
    let (mut sound, mut events, mut firings, mut signals) = (0, 0, 0, [0; 2]);
    let mut ledger = Ledger::asleep(limit, &plan);
    for root_0 in standings(&[0, 1, 2], &[NONE, 0]) {
        for root_1 in standings(&[3, 4], &[NONE, 3]) {
            for branch in standings(&[5, 6], &[NONE]) {
                ledger.tracks = vec![root_0.clone(), root_1.clone(), branch];
                let words = ledger.words();
                let ends = |call: Call| {
                    let (answer, after) = agreed(limit, &bytes, &words, call, 0);
                    usize::from(answer as u16 == 0 && are_over(&after))
                };
                let (ready, _) = agreed(limit, &bytes, &words, Call::Ready, 0);
                sound += usize::from(ready as u16 == 0);
                events += (1..=6).map(|number| ends(event(number))).sum::<usize>();
                firings += (0..=3).map(|track| ends(fire(track))).sum::<usize>();
                assert_eq!(ends(signal()), 0);
                for (place, society) in [OF_ROOT_0, OF_ROOT_1].into_iter().enumerate() {
                    signals[place] += ends(Call::Signal(society));
                    for number in 0..=6 {
                        ends(Call::Event(number, 0, society));
                    }
                    for track in 0..=3 {
                        ends(Call::Fire(track, society));
                    }
                }
                assert_eq!(ends(Call::Signal(9)), 0);
            }
        }
    }
    assert_eq!((sound, events, firings), (337, 33, 21));
    assert_eq!(signals, [9, 3]);
}
