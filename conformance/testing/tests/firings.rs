//! Generated withdrawals: after a signal that turns every forward track, and with
//! no deviation held, there are as many firings as entries held, in any order.

use second::journal::{self, Outcome, Record};
use second::ledger::{Ledger, Mode, Track};
use second::limit::Limit;
use second::manager::{self, Answer};
use second::plan::{self, members, Plan, Right, NONE};
use second::refusal::Refusal;
use second::rules;
use testing::generate::rng::Rng;
use testing::generate::withdrawals::{self, Withdrawal};
use testing::generate::{journals, ledgers, societies};
use testing::samples;

/// The main program's limit.
const MAIN: Limit = Limit::MAIN;

/// How the next track is chosen among those that are ready.
#[derive(Clone, Copy)]
enum Order {
    Lowest,
    Highest,
    Random,
}

impl Order {
    fn choose(self, rng: &mut Rng, ready: u32) -> Option<usize> {
        let tracks: Vec<usize> = members(ready).collect();
        match self {
            Order::Lowest => tracks.first().copied(),
            Order::Highest => tracks.last().copied(),
            Order::Random => rng.pick(&tracks),
        }
    }
}

/// The ledger before and after the last signal of a history.
struct Turned {
    plan: Plan,
    before: Ledger,
    after: Ledger,
    /// The firings before it.
    fired: usize,
    /// Whether it turned some track.
    turns: bool,
    /// Whether it did so after a signal of another society that had turned some
    /// tracks and left others forward.
    shared: bool,
}

fn turned(withdrawal: &Withdrawal) -> Turned {
    let plan = plan::read(&withdrawal.plan).expect("accepted");
    let (&last, others) = withdrawal.records.split_last().expect("a signal");
    let mut before = rules::begin(MAIN, &plan);
    let (mut partial, mut fired) = (None, 0);
    for &record in others {
        let outcome = journal::perform(&plan, &mut before, record);
        if let (Record::Signal(society), Outcome::Signal(1..)) = (record, outcome) {
            partial = Some(society).filter(|_| forward(&before) > 0);
        }
        fired += usize::from(matches!(outcome, Outcome::Fire(..)));
    }
    let mut after = before.clone();
    let outcome = journal::perform(&plan, &mut after, last);
    assert!(matches!(outcome, Outcome::Signal(_)));
    let undoing = before.tracks.iter().any(|t| t.mode == Mode::Undoing);
    let turns = matches!(outcome, Outcome::Signal(1..));
    let another = partial.map_or(false, |other| other != society(last));
    Turned {
        plan,
        before,
        after,
        fired,
        turns,
        shared: turns && undoing && another,
    }
}

/// How many tracks are forward.
fn forward(ledger: &Ledger) -> usize {
    let forward = ledger.tracks.iter().filter(|t| t.mode == Mode::Forward);
    forward.count()
}

/// Whether an entry held carries a deviation.
fn deviates(ledger: &Ledger) -> bool {
    let mut entries = ledger.tracks.iter().flat_map(Track::entries);
    entries.any(|entry| entry.deviation != NONE)
}

/// Whether both conditions of the count hold: no track is forward, and no entry
/// held carries a deviation. On an over ledger there is nothing to count.
fn is_in_withdrawal(ledger: &Ledger) -> bool {
    !ledger.is_over() && forward(ledger) == 0 && !deviates(ledger)
}

/// A firing of the track by a society that may fire it.
fn firing(rng: &mut Rng, plan: &Plan, track: usize) -> Record {
    let mut able = societies::named(plan);
    able.retain(|&society| plan.allows(society, Right::Fire, track));
    let society = rng.pick(&able).expect("somebody may fire the track");
    Record::Fire(track as u16, society)
}

/// What must hold at every point of a withdrawal that started with so many
/// entries held.
fn is_due(plan: &Plan, ledger: &Ledger, held: usize, fired: usize) {
    assert!(is_in_withdrawal(ledger), "{:?}", plan.records());
    assert_eq!(held, fired + ledger.total_held(), "{:?}", plan.records());
    let none = rules::ready(plan, ledger) == 0;
    assert_eq!(none, ledger.total_held() == 0, "{:?}", plan.records());
}

/// A run of firings until none is ready, and the ledger before each of them and
/// at the end.
struct Run {
    records: Vec<Record>,
    passed: Vec<Ledger>,
}

fn fire_all(rng: &mut Rng, plan: &Plan, start: &Ledger, order: Order) -> Run {
    let mut ledger = start.clone();
    let (mut records, mut passed) = (Vec::new(), vec![start.clone()]);
    while let Some(track) = order.choose(rng, rules::ready(plan, &ledger)) {
        let record = firing(rng, plan, track);
        let outcome = journal::perform(plan, &mut ledger, record);
        assert!(matches!(outcome, Outcome::Fire(t, _) if usize::from(t) == track));
        records.push(record);
        passed.push(ledger.clone());
        assert!(records.len() <= start.limit.entries() * plan.track_count());
    }
    Run { records, passed }
}

/// Fires a withdrawal in several orders, each from its start and from a later
/// point on. Answers the run from the lowest track on.
fn fire_in_every_order(rng: &mut Rng, plan: &Plan, start: &Ledger) -> Run {
    let held = start.total_held();
    let lowest = fire_all(rng, plan, start, Order::Lowest);
    let others = [Order::Highest, Order::Random, Order::Random, Order::Random];
    let others = others.map(|order| fire_all(rng, plan, start, order));
    for run in others.iter().chain([&lowest]) {
        assert_eq!(run.records.len(), held, "{:?}", plan.records());
        for (fired, ledger) in run.passed.iter().enumerate() {
            is_due(plan, ledger, held, fired);
        }
        let fired = rng.below(run.passed.len());
        let later = &run.passed[fired];
        let rest = fire_all(rng, plan, later, Order::Random).records.len();
        assert_eq!(rest, later.total_held(), "{:?}", plan.records());
        assert_eq!(fired + rest, held, "{:?}", plan.records());
    }
    lowest
}

/// Whether each count is above its floor.
fn are_above(floors: &[(u32, u32)]) -> bool {
    floors.iter().all(|(count, floor)| count > floor)
}

/// What was come upon, each to be held to a floor.
#[derive(Debug, Default)]
struct Seen {
    withdrawals: u32,
    entries: u32,
    with_entries: u32,
    turning: u32,
    five_entries: u32,
    forty_entries: u32,
    full_track: u32,
    hosted: u32,
    three_levels: u32,
    scope_abandoned: u32,
    two_roots: u32,
    several_orders: u32,
    shared: u32,
    several_firers: u32,
    windows: u32,
}

impl Seen {
    fn note(&mut self, turned: &Turned) {
        let Turned { plan, after, .. } = turned;
        let held = after.total_held();
        let holding = |&t: &usize| after.tracks[t].held() > 0;
        let holding: Vec<usize> = (0..plan.track_count()).filter(holding).collect();
        self.withdrawals += 1;
        self.entries += held as u32;
        self.with_entries += u32::from(held > 0);
        self.turning += u32::from(turned.turns && held > 0);
        self.five_entries += u32::from(held >= 5);
        self.forty_entries += u32::from(held >= 40);
        let full = |&t: &usize| after.tracks[t].is_full(after.limit);
        self.full_track += u32::from(holding.iter().any(full));
        let hosted = |&t: &usize| !plan.is_root(t);
        self.hosted += u32::from(holding.iter().any(hosted));
        let deep = |&t: &usize| level(plan, t) >= 3;
        self.three_levels += u32::from(holding.iter().any(deep));
        let awake = |ledger: &Ledger| ledger.tracks.iter().filter(|t| t.is_awake()).count();
        let abandoned = held > 0 && awake(after) < awake(&turned.before);
        self.scope_abandoned += u32::from(abandoned);
        let mut roots: Vec<usize> = holding.iter().map(|&t| plan.root_of(t)).collect();
        roots.sort_unstable();
        roots.dedup();
        self.two_roots += u32::from(roots.len() > 1);
        self.shared += u32::from(turned.shared && held > 0);
        let windows = !plan.records().windows.is_empty();
        self.windows += u32::from(windows && held > 0);
    }

    /// Notes a run of firings.
    fn note_run(&mut self, plan: &Plan, run: &Run) {
        let choice = |ledger: &Ledger| rules::ready(plan, ledger).count_ones() > 1;
        self.several_orders += u32::from(run.passed.iter().any(choice));
        let by = run.records.iter().map(|&record| society(record));
        let mut societies: Vec<u16> = by.collect();
        societies.sort_unstable();
        societies.dedup();
        self.several_firers += u32::from(societies.len() > 1);
    }

    fn reaches_its_floors(&self) {
        let floors = [
            (self.withdrawals, 5_000),
            (self.entries, 24_000),
            (self.with_entries, 3_800),
            (self.turning, 3_600),
            (self.five_entries, 1_300),
            (self.forty_entries, 40),
            (self.full_track, 140),
            (self.hosted, 1_400),
            (self.three_levels, 450),
            (self.scope_abandoned, 480),
            (self.two_roots, 1_600),
            (self.several_orders, 1_900),
            (self.shared, 1_000),
            (self.several_firers, 900),
            (self.windows, 1_400),
        ];
        assert!(are_above(&floors), "{self:?}");
    }
}

/// 1 for a root, 2 for a track that a root hosts, and so on.
fn level(plan: &Plan, track: usize) -> usize {
    std::iter::successors(Some(track), |&t| plan.host_track(t)).count()
}

fn society(record: Record) -> u16 {
    match record {
        Record::Event(_, _, society) | Record::Fire(_, society) => society,
        Record::Signal(society) | Record::FireLowest(society) => society,
    }
}

#[test]
fn every_order_has_as_many_firings_as_entries_held() {
    let mut seen = Seen::default();
    for index in 0..10_000 {
        let mut rng = Rng::for_case(9, 1, index);
        let turned = turned(&withdrawals::withdrawal(&mut rng, MAIN));
        if !is_in_withdrawal(&turned.after) {
            continue;
        }
        // The signal drops none.
        let held = turned.before.total_held();
        assert_eq!(turned.after.total_held(), held);
        let run = fire_in_every_order(&mut rng, &turned.plan, &turned.after);
        let last = run.passed.last().expect("a ledger");
        assert!(last.total_held() == 0 && !last.is_over());
        seen.note(&turned);
        seen.note_run(&turned.plan, &run);
    }
    seen.reaches_its_floors();
}

#[test]
fn any_sound_ledger_may_be_withdrawn_so() {
    let (mut withdrawals, mut entries) = (0, 0);
    for index in 0..10_000 {
        let mut rng = Rng::for_case(9, 2, index);
        let bytes = withdrawals::records(&mut rng).encode();
        let plan = plan::read(&bytes).expect("accepted");
        let mut ledger = ledgers::sound(&mut rng, MAIN, &plan);
        let held = ledger.total_held();
        for society in societies::named(&plan) {
            // Refused where it has no right, or the ledger is over.
            let _ = rules::signal(&plan, &mut ledger, society);
        }
        if is_in_withdrawal(&ledger) {
            assert_eq!(ledger.total_held(), held);
            fire_in_every_order(&mut rng, &plan, &ledger);
            withdrawals += u32::from(held > 0);
            entries += held;
        }
    }
    assert!(withdrawals > 900, "{withdrawals}");
    assert!(entries > 11_000, "{entries}");
}

/// The calls between firings that were come upon.
#[derive(Debug, Default)]
struct Calls {
    events: u32,
    later_days: u32,
    signals: u32,
    not_ready: u32,
    no_track: u32,
    no_right: u32,
}

impl Calls {
    /// Holds a call that fired nothing to what it may do, and counts it.
    fn note(&mut self, plan: &Plan, [before, after]: [&Ledger; 2], call: (Record, Outcome)) {
        assert_eq!(before.tracks, after.tracks);
        let accepted = !matches!(call.1, Outcome::Refused(_));
        assert!(accepted || before == after);
        match call {
            (_, Outcome::Event(_, m)) => {
                assert_eq!((m.moved, m.closed), (0, 0));
                self.events += 1;
                self.later_days += u32::from(after.day > before.day);
            }
            (_, Outcome::Signal(turned)) => {
                assert!(turned == 0 && before == after);
                self.signals += 1;
            }
            (Record::Fire(track, _), Outcome::Refused(Refusal::NotReady)) => {
                let exists = usize::from(track) < plan.track_count();
                self.not_ready += u32::from(exists);
                self.no_track += u32::from(!exists);
            }
            (Record::Fire(..), Outcome::Refused(Refusal::NoRight)) => self.no_right += 1,
            _ => {}
        }
    }

    fn reach_their_floors(&self) {
        let floors = [
            (self.events, 3_300),
            (self.later_days, 1_000),
            (self.signals, 1_100),
            (self.not_ready, 2_100),
            (self.no_track, 1_400),
            (self.no_right, 1_700),
        ];
        assert!(are_above(&floors), "{self:?}");
    }
}

/// Calls after the last firing.
const IDLE: usize = 3;

#[test]
fn other_calls_between_the_firings_change_no_entry() {
    let mut calls = Calls::default();
    for index in 0..5_000 {
        let mut rng = Rng::for_case(9, 3, index);
        let Turned { plan, after, .. } = turned(&withdrawals::withdrawal(&mut rng, MAIN));
        if !is_in_withdrawal(&after) {
            continue;
        }
        let held = after.total_held();
        let (mut ledger, mut fired, mut idle) = (after, 0, 0);
        while idle < IDLE {
            let track = Order::Random.choose(&mut rng, rules::ready(&plan, &ledger));
            let record = match track {
                Some(track) if rng.chance(50) => firing(&mut rng, &plan, track),
                _ => journals::useless(&mut rng, &plan, &ledger),
            };
            let before = ledger.clone();
            let outcome = journal::perform(&plan, &mut ledger, record);
            if matches!(outcome, Outcome::Fire(..)) {
                fired += 1;
            } else {
                calls.note(&plan, [&before, &ledger], (record, outcome));
            }
            is_due(&plan, &ledger, held, fired);
            idle += usize::from(track.is_none());
        }
        assert_eq!(fired, held, "{:?}", plan.records());
    }
    calls.reach_their_floors();
}

/// The entries held by all tracks together, by the manager.
fn entries_held(bytes: &[u8], words: &[u16]) -> usize {
    let tracks = plan::read(bytes).expect("accepted").track_count();
    let held = |t| manager::entries(MAIN, bytes, words, t).len() / 2;
    (0..tracks as u16).map(held).sum()
}

/// Makes the last signal and then firings by the public calls, in any order.
fn fire_by_calls(rng: &mut Rng, bytes: &[u8], turned: &Turned, signal: Record) {
    let mut words = turned.before.words();
    let held = entries_held(bytes, &words);
    let signalled = manager::signal(MAIN, bytes, &mut words, society(signal));
    assert!(matches!(signalled, Answer::Done(_)));
    for fired in 0..=held {
        assert_eq!(entries_held(bytes, &words), held - fired);
        let ready = match manager::ready(MAIN, bytes, &words) {
            Answer::Done(ready) => ready,
            Answer::Refused(refusal) => panic!("ready refused as {refusal:?}"),
        };
        assert_eq!(ready == 0, fired == held);
        if let Some(track) = Order::Random.choose(rng, ready) {
            let by = society(firing(rng, &turned.plan, track));
            let done = manager::fire(MAIN, bytes, &mut words, track as u16, by);
            assert!(matches!(done, Answer::Done(entry) if entry.deviation == NONE));
        }
    }
    // Not over: a signal is accepted and turns none.
    let again = manager::signal(MAIN, bytes, &mut words, society(signal));
    assert_eq!(again, Answer::Done(0));
}

/// The last two lines that the program prints for the history, an order of
/// firing and one firing more.
fn last_lines(withdrawal: &Withdrawal, firings: &[Record]) -> Vec<String> {
    let records = [&withdrawal.records, firings, &[samples::lowest()]].concat();
    let output = journal::unwind(&withdrawal.plan, &samples::journal(&records));
    let text = String::from_utf8(output).expect("text");
    let lines: Vec<&str> = text.lines().collect();
    let last = &lines[lines.len() - 2..];
    last.iter().map(|line| line.to_string()).collect()
}

#[test]
fn public_calls_and_the_program_count_as_many() {
    let (mut withdrawals, mut entries) = (0, 0);
    for index in 0..1_000 {
        let mut rng = Rng::for_case(9, 4, index);
        let withdrawal = withdrawals::withdrawal(&mut rng, MAIN);
        let turned = turned(&withdrawal);
        if !is_in_withdrawal(&turned.after) {
            continue;
        }
        let held = turned.before.total_held();
        let signal = withdrawal.records[withdrawal.records.len() - 1];
        fire_by_calls(&mut rng, &withdrawal.plan, &turned, signal);
        let firings = fire_all(&mut rng, &turned.plan, &turned.after, Order::Random).records;
        let all = turned.fired + held;
        let expected = ["R 22".to_string(), format!("H 0 {all}")];
        assert_eq!(last_lines(&withdrawal, &firings), expected);
        withdrawals += u32::from(held > 0);
        entries += held;
    }
    assert!(withdrawals > 380, "{withdrawals}");
    assert!(entries > 2_400, "{entries}");
}

/// The firings that can follow one another from a ledger: of each undoing track
/// its entries from the newest one to the first that deviates.
fn until_deviations(ledger: &Ledger) -> usize {
    let undoing = ledger.tracks.iter().filter(|t| t.mode == Mode::Undoing);
    let fired = |t: &Track| {
        let mut newest = t.entries().iter().rev();
        let deviating = newest.position(|entry| entry.deviation != NONE);
        deviating.map_or(t.held(), |newer| newer + 1)
    };
    undoing.map(fired).sum()
}

/// Fires in several orders, with as many firings as go before deviations. Answers
/// the last of the runs.
fn fire_until_deviations(rng: &mut Rng, plan: &Plan, start: &Ledger) -> Run {
    let orders = [Order::Lowest, Order::Highest, Order::Random];
    let runs = orders.map(|order| fire_all(rng, plan, start, order));
    for run in &runs {
        let fired = run.records.len();
        assert_eq!(fired, until_deviations(start), "{:?}", plan.records());
        let last = run.passed.last().expect("a ledger");
        let kept = start.total_held() - fired;
        let left = if last.is_over() { 0 } else { kept };
        assert_eq!(last.total_held(), left, "{:?}", plan.records());
    }
    let [_, _, random] = runs;
    random
}

#[test]
fn there_are_fewer_firings_with_a_forward_track_or_a_deviation() {
    let (mut forward_left, mut fewer_forward, mut finished) = (0, 0, 0);
    let (mut deviating, mut fewer_deviating) = (0, 0);
    for index in 0..10_000 {
        let mut rng = Rng::for_case(9, 5, index);
        let Turned { plan, after, .. } = turned(&withdrawals::withdrawal(&mut rng, MAIN));
        if after.is_over() || is_in_withdrawal(&after) {
            continue;
        }
        let run = fire_until_deviations(&mut rng, &plan, &after);
        let last = run.passed.last().expect("a ledger");
        let fewer = run.records.len() < after.total_held();
        match (forward(&after) > 0, deviates(&after)) {
            (true, false) => {
                forward_left += 1;
                fewer_forward += u32::from(fewer && !last.is_over());
                finished += u32::from(fewer && last.is_over());
            }
            (false, true) => {
                assert!(!last.is_over() && forward(last) > 0);
                deviating += 1;
                fewer_deviating += u32::from(fewer);
            }
            _ => {}
        }
    }
    assert!(forward_left > 380, "{forward_left}");
    assert!(fewer_forward > 180, "{fewer_forward}");
    assert!(finished > 55, "{finished}");
    assert!(deviating > 950, "{deviating}");
    assert!(fewer_deviating > 540, "{fewer_deviating}");
}
