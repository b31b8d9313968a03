//! `theorems FOLDER HISTORIES PLANS LEDGERS`: reads the lines that `vectors`
//! prints and writes them to FOLDER as theorems for antt, one to a case, each
//! proved by computing the definitions of the rules.
//!
//! Taken are HISTORIES histories, PLANS refused plans and LEDGERS calls on
//! damaged ledgers, and fewer histories that end half withdrawn, whole runs,
//! accepted plans, calls on sound ledgers, on those with roots in both modes
//! and on those of other plans, events that windows or days have a say in, calls
//! that rights have a say in, calls that a limit has a say in, plans refused for
//! their rights, largest numbers of entries, plans that have none, what is asked of withdrawals, orders of firing,
//! lists of tracks that are none, and conversions: of each sort as many different
//! ones as there are. Cases too large to be computed quickly are dropped.

use std::collections::{BTreeSet, HashMap};
use std::fs;
use std::io;
use std::path::Path;
use std::process::ExitCode;

use second::days::Term;
use second::journal::{self, Record, Records};
use second::ledger::{self, track_words, Clause, Ledger, Mode};
use second::limit::Limit;
use second::paths::{self, Largest};
use second::plan::{self, Plan, Right, NONE};
use second::rules;
use testing::faults::{self, RightsFault};
use testing::generate::journals::windows_met;
use testing::theorems::{parts, statement};
use testing::vectors::letter_and_limit;

/// Theorems to a file.
const FILE: usize = 30;

/// The imports of each file.
const IMPORTS: &str = "\
use Rattle.std.specs.Prelude.{refl, [], ◌∷◌, true, false, pos, negsuc}
use Rattle.rules.specs.Acceptance.{turned_back}
use Rattle.rules.specs.Call.{refusal, done}
use Rattle.rules.specs.Largest as bounds
use Rattle.rules.specs.Setting.{main_terms, reading_room_terms}
use Rattle.starred.specs.Computing.{computing}
use Rattle.agreement.specs.Statements.{e, f, s, terms_of, counts_of, accepted_with, HistoryAgrees, \
    PlanAgrees, CallAgrees, ReadyAgrees, EntriesAgree, RunAgrees, LargestAgrees, \
    WithdrawalAgrees, OrderAgrees, NoOrder, DateIs, NoDate, DayIs, NoDay}
";

/// What is unfolded beside that where the largest number of entries is computed.
const BOUNDS: &str = "bounds.of_transition bounds.of_state bounds.leaves bounds.most_within \
    bounds.largest bounds.has_deviation bounds.goes_on bounds.has_cycle bounds.is_unbounded \
    bounds.read_bounded bounds.largest_answer bounds.largest_of";

/// The sorts of cases.
#[derive(Clone, Copy, PartialEq)]
enum Sort {
    History,
    /// A history that some root was taken back in and that is over.
    HalfWithdrawn,
    Run,
    Refused,
    /// Refused for too many records or too great a height: never small.
    Oversized,
    Accepted,
    Damaged,
    /// A call on a ledger whose leading words are not the plan's.
    OtherPlan,
    /// An event that meets a window, or is refused for its day.
    Dated,
    /// A plan refused for its rights records.
    UnfitRights,
    /// A plan refused for a 65th rights record alone: never small.
    CrowdedRights,
    /// A call refused as 28.
    NoRight,
    /// An event that is refused as 21, or gives a track the last entry that the
    /// limit allows.
    Full,
    /// A signal that turns some forward tracks and leaves others.
    Partial,
    /// An event that leaves tracks which would move by right of all, or a signal
    /// that turns none of the forward ones.
    Left,
    /// The largest number of entries of a track.
    Largest,
    /// A plan refused as 29.
    Unbounded,
    /// A plan refused otherwise where that number was asked for.
    NoLargest,
    /// What is asked of a ledger in a withdrawal.
    Withdrawal,
    /// An order of firing.
    Order,
    /// Tracks that are no order of firing.
    NoOrder,
    /// A conversion of a day or a date.
    Conversion,
    /// An event, a signal or a firing that is done with roots in both modes:
    /// what finish may follow, or may not.
    Parted,
    /// Another signal or firing that is done: what abandoning follows.
    Undoing,
    Other,
}

/// How many cases of a sort are wanted, of a size that is computed quickly.
struct Share {
    sort: Sort,
    name: &'static str,
    wanted: usize,
    most_size: usize,
}

fn shares(histories: usize, plans: usize, ledgers: usize) -> [Share; 25] {
    let share = |sort, name, wanted, most_size| Share {
        sort,
        name,
        wanted,
        most_size,
    };
    [
        share(Sort::History, "histories", histories, 700),
        share(
            Sort::HalfWithdrawn,
            "histories that end half withdrawn",
            histories / 10,
            1000,
        ),
        share(Sort::Run, "whole runs", histories / 10, 800),
        share(Sort::Refused, "refused plans", plans, 300),
        share(Sort::Oversized, "plans refused as 6 or 16", plans / 20, 500),
        share(Sort::Accepted, "accepted plans", plans / 20, 300),
        share(Sort::Damaged, "calls on damaged ledgers", ledgers, 200),
        share(Sort::OtherPlan, "calls refused as 24", ledgers / 4, 200),
        share(
            Sort::Parted,
            "calls done with roots in both modes",
            ledgers / 4,
            240,
        ),
        share(
            Sort::Dated,
            "events that meet a window or are refused as 26",
            ledgers / 5,
            240,
        ),
        share(Sort::UnfitRights, "plans refused as 27", plans / 10, 300),
        share(
            Sort::CrowdedRights,
            "plans refused as 27 for a 65th record",
            plans / 100,
            900,
        ),
        share(Sort::NoRight, "calls refused as 28", ledgers / 8, 240),
        share(
            Sort::Full,
            "events that fill a track or are refused as 21",
            ledgers / 5,
            240,
        ),
        share(
            Sort::Partial,
            "signals that leave some forward",
            ledgers / 8,
            260,
        ),
        share(
            Sort::Left,
            "events and signals that leave others' tracks",
            ledgers / 10,
            260,
        ),
        share(Sort::Undoing, "signals and firings done", ledgers / 5, 240),
        share(Sort::Other, "other calls", ledgers / 5, 200),
        share(Sort::Conversion, "conversions", ledgers / 10, 400),
        share(
            Sort::Largest,
            "largest numbers of entries",
            ledgers / 5,
            240,
        ),
        share(Sort::Unbounded, "plans refused as 29", plans / 10, 240),
        share(Sort::NoLargest, "plans refused before 29", plans / 40, 240),
        share(
            Sort::Withdrawal,
            "ledgers of withdrawals",
            ledgers / 10,
            240,
        ),
        share(Sort::Order, "orders of firing", ledgers / 8, 1000),
        share(Sort::NoOrder, "no orders of firing", ledgers / 10, 1000),
    ]
}

/// A case small enough to be taken.
struct Case {
    number: usize,
    line: String,
    /// How many cases that show the same stand before it.
    rank: usize,
}

fn fields_of(line: &str) -> Vec<&str> {
    line.split(';').collect()
}

/// The limit of a line and its fields, the first one without it.
fn limit_and_fields(line: &str) -> Option<(Limit, Vec<&str>)> {
    let mut fields = fields_of(line);
    let (letter, limit) = letter_and_limit(fields[0])?;
    fields[0] = letter;
    Some((limit, fields))
}

/// The sort of a case and its size: the bytes of the plan, read once for the
/// begin and once for each call, and taken once more for each firing of an
/// order; for the date of a day, the days before it.
fn sort_of(limit: Limit, fields: &[&str]) -> Option<(Sort, usize)> {
    let plan = fields.get(1)?.len() / 2;
    Some(match *fields {
        ["H", bytes, _, calls, _, _] => {
            let sort = match ending(limit, bytes, records(calls)) {
                Some((_, true)) => Sort::HalfWithdrawn,
                _ => Sort::History,
            };
            (sort, plan * (1 + parts(calls, ',').count()))
        }
        ["U", _, journal, _] => {
            let records = run_records(&numbers(journal, 2)).count();
            (Sort::Run, plan * (1 + records))
        }
        ["P", _, "6" | "16"] => (Sort::Oversized, plan),
        ["P", bytes, "27"] if is_crowded(bytes) => (Sort::CrowdedRights, plan),
        ["P", _, "27"] => (Sort::UnfitRights, plan),
        ["P", _, answer] if answer.starts_with('A') => (Sort::Accepted, plan),
        ["P", _, _] => (Sort::Refused, plan),
        ["L", "", "", call, _, _] if call.starts_with(['D', 'G']) => {
            (Sort::Conversion, days_before(call))
        }
        ["L", _, "", call, answer, ""] if call.starts_with('M') => {
            let sort = match answer {
                "R29" => Sort::Unbounded,
                _ if answer.starts_with('R') => Sort::NoLargest,
                _ => Sort::Largest,
            };
            (sort, plan)
        }
        ["L", _, _, _, "R17" | "R18", _] => (Sort::Damaged, plan),
        ["L", _, _, _, "R28", _] => (Sort::NoRight, plan),
        ["L", _, _, _, "R21", _] => (Sort::Full, plan),
        ["L", bytes, words, _, answer, after]
            if answer.starts_with('D') && fills(limit, bytes, [words, after]) =>
        {
            (Sort::Full, plan)
        }
        ["L", bytes, words, call, answer, _]
            if leaves(limit, bytes, words, call, answer).is_some() =>
        {
            let partial = leaves(limit, bytes, words, call, answer) == Some(true);
            (if partial { Sort::Partial } else { Sort::Left }, plan)
        }
        ["L", bytes, words, _, "R24" | "", _] if !differing(limit, bytes, words).is_empty() => {
            (Sort::OtherPlan, plan)
        }
        ["L", bytes, words, call, answer, _] if is_dated(limit, bytes, words, call, answer) => {
            (Sort::Dated, plan)
        }
        ["L", bytes, words, call, answer, _] if is_parted(limit, bytes, words, call, answer) => {
            (Sort::Parted, plan)
        }
        ["L", _, _, call, answer, _] if is_undoing(call, answer) => (Sort::Undoing, plan),
        ["L", _, _, _, _, _] => (Sort::Other, plan),
        ["W", _, _, _, _, _, _] => (Sort::Withdrawal, plan),
        ["O", _, _, _, tracks, answer] => {
            let is_order = answer != "no";
            let sort = if is_order { Sort::Order } else { Sort::NoOrder };
            (sort, plan * (1 + parts(tracks, ',').count()))
        }
        _ => return None,
    })
}

/// Whether a plan has more than 64 rights records and no other fault of rights.
fn is_crowded(plan: &str) -> bool {
    let records = plan::read_records(&numbers(plan, 2));
    let faults = records.map(|records| faults::rights_faults(&records));
    faults == Ok(vec![RightsFault::TooMany])
}

/// Of an event or a signal that is done and leaves tracks for want of the right:
/// whether it is a signal that turns some. None of another call.
fn leaves(limit: Limit, plan: &str, words: &str, call: &str, answer: &str) -> Option<bool> {
    let done: usize = answer.strip_prefix('D')?.split(',').next()?.parse().ok()?;
    let record = records(call).next()?;
    let plan = plan::read(&numbers(plan, 2)).ok()?;
    let ledger = Ledger::decode(limit, &plan, &numbers(words, 4));
    match record {
        Record::Event(event, day, _) => {
            let possible = rules::possible_moves(&plan, &ledger, event, day);
            (possible.len() > done).then_some(false)
        }
        Record::Signal(_) => {
            let forward = ledger.tracks.iter().filter(|t| t.mode == Mode::Forward);
            (forward.count() > done).then_some(done > 0)
        }
        _ => None,
    }
}

/// Whether a call gave a track the last entry that the limit allows.
fn fills(limit: Limit, plan: &str, [before, after]: [&str; 2]) -> bool {
    let plan = match plan::read(&numbers(plan, 2)) {
        Ok(plan) => plan,
        Err(_) => return false,
    };
    let (before, after): (Vec<u16>, Vec<u16>) = (numbers(before, 4), numbers(after, 4));
    let held = |words: &[u16], t| usize::from(track_words(limit, words, t)[2]);
    let mut tracks = 0..plan.track_count();
    tracks.any(|t| held(&before, t) < held(&after, t) && held(&after, t) == limit.entries())
}

/// The days of the range before the day whose date is asked for; none of a day
/// out of range or for a date.
fn days_before(call: &str) -> usize {
    let day = call.strip_prefix('D').and_then(|day| day.parse().ok());
    let day = day.filter(|&day| Term::RANGE.contains(day));
    day.map_or(0, |day: i32| (day - Term::RANGE.first) as usize)
}

/// Whether an event meets a window, or is refused for its day.
fn is_dated(limit: Limit, plan: &str, words: &str, call: &str, answer: &str) -> bool {
    answer == "R26" || !windows_of_call(limit, plan, words, call, answer).is_empty()
}

/// How the windows that an event meets stand to its day; none of another call,
/// or of one that is refused.
fn windows_of_call(
    limit: Limit,
    plan: &str,
    words: &str,
    call: &str,
    answer: &str,
) -> BTreeSet<&'static str> {
    let plan = plan::read(&numbers(plan, 2)).ok();
    match (plan, records(call).next()) {
        (Some(plan), Some(record)) if answer.starts_with('D') => {
            let ledger = Ledger::decode(limit, &plan, &numbers(words, 4));
            windows(&plan, &ledger, record)
        }
        _ => BTreeSet::new(),
    }
}

/// How the windows that a record meets stand to its day.
fn windows(plan: &Plan, ledger: &Ledger, record: Record) -> BTreeSet<&'static str> {
    let (event, day) = match record {
        Record::Event(event, day, _) => (event, day),
        _ => return BTreeSet::new(),
    };
    let stands = |term: Term| match term {
        Term { first, last } if first == last && day == first => "its day",
        Term { first, .. } if day == first => "first day",
        Term { last, .. } if day == last => "last day",
        Term { first, .. } if day < first => "before",
        Term { last, .. } if day > last => "after",
        _ => "within",
    };
    let met = windows_met(plan, ledger, event);
    met.into_iter().map(stands).collect()
}

/// The same for all records of a history.
fn windows_of_history(
    limit: Limit,
    plan: &str,
    records: impl Iterator<Item = Record>,
) -> BTreeSet<&'static str> {
    let plan = match plan::read(&numbers(plan, 2)) {
        Ok(plan) => plan,
        Err(_) => return BTreeSet::new(),
    };
    let mut ledger = rules::begin(limit, &plan);
    let met = records.flat_map(|record| {
        let met = windows(&plan, &ledger, record);
        journal::perform(&plan, &mut ledger, record);
        met
    });
    met.collect()
}

fn is_undoing(call: &str, answer: &str) -> bool {
    call.starts_with(['S', 'F']) && answer.starts_with('D')
}

/// Whether an event, a signal or a firing is done with roots in both modes.
fn is_parted(limit: Limit, plan: &str, words: &str, call: &str, answer: &str) -> bool {
    let done = call.starts_with(['E', 'S', 'F']) && answer.starts_with('D');
    let plan = plan::read(&numbers(plan, 2)).ok().filter(|_| done);
    plan.map_or(false, |plan| parted(limit, &plan, &numbers(words, 4)))
}

/// Whether some root is forward and some root undoing.
fn parted(limit: Limit, plan: &Plan, words: &[u16]) -> bool {
    let some = |mode| {
        plan.roots()
            .any(|t| track_words(limit, words, t)[0] == mode)
    };
    some(1) && some(2)
}

/// What put every track to sleep in a history: the letter of the record, and
/// whether roots were in both modes before it.
fn ending(
    limit: Limit,
    plan: &str,
    mut records: impl Iterator<Item = Record>,
) -> Option<(char, bool)> {
    let plan = plan::read(&numbers(plan, 2)).ok()?;
    let mut ledger = rules::begin(limit, &plan);
    records.find_map(|record| {
        let parted = parted(limit, &plan, &ledger.words());
        journal::perform(&plan, &mut ledger, record);
        let letter = match record {
            Record::Event(..) => 'E',
            Record::Signal(_) => 'S',
            Record::Fire(..) | Record::FireLowest(_) => 'F',
        };
        ledger.is_over().then_some((letter, parted))
    })
}

/// The records of a history's calls.
fn records(calls: &str) -> impl Iterator<Item = Record> + '_ {
    let record = |call: &str| match (call.get(..1)?, call.get(1..)?) {
        ("E", given) => {
            let (event, given) = given.split_once('@')?;
            let (day, society) = given.split_once(':')?;
            let (event, day) = (event.parse().ok()?, day.parse().ok()?);
            Some(Record::Event(event, day, society.parse().ok()?))
        }
        ("S", given) => Some(Record::Signal(given.strip_prefix(':')?.parse().ok()?)),
        ("F", given) => {
            let (track, society) = given.split_once(':')?;
            Some(Record::Fire(track.parse().ok()?, society.parse().ok()?))
        }
        _ => None,
    };
    parts(calls, ',').filter_map(record)
}

/// The whole records of a journal.
fn run_records(journal: &[u8]) -> impl Iterator<Item = Record> + '_ {
    Records::new(journal).filter_map(Result::ok)
}

/// How the roots stand, in rising order: mode, whether in a final state, whether
/// holding entries, whether with an open scope.
fn standings(limit: Limit, plan: &Plan, words: &[u16]) -> Vec<(u16, bool, bool, bool)> {
    let awake = |t: usize| track_words(limit, words, t)[0] != 0;
    let standing = |t: usize| {
        let own = track_words(limit, words, t);
        let open = plan::members(plan.scope(own[1])).any(awake);
        (own[0], plan.is_final(own[1]), own[2] > 0, open)
    };
    let mut standings: Vec<_> = plan.roots().map(standing).collect();
    standings.sort_unstable();
    standings
}

/// Which of the leading words is not the plan's; none where the plan is
/// refused or the words are too few.
fn differing(limit: Limit, plan: &str, words: &str) -> Vec<&'static str> {
    let words: Vec<u16> = numbers(words, 4);
    match plan::read(&numbers(plan, 2)) {
        Ok(plan) if words.len() >= ledger::words_needed(limit, &plan) => {
            let pairs = ledger::plan_words(&plan).into_iter().zip(words);
            let named = ["length", "sum"].into_iter().zip(pairs);
            let differ = named.filter(|(_, (own, lent))| own != lent);
            differ.map(|(name, _)| name).collect()
        }
        _ => Vec::new(),
    }
}

/// What a case shows: a history its plan's height, the outcomes of its calls,
/// its ending and the windows that it meets, a run its sorts of lines, its
/// ending and its windows, a plan its refusal and what windows have to do with
/// it, a call what it changes, how the roots stand where they are in both modes
/// and the windows that it meets, the clauses violated or the leading words
/// that are not the plan's, a largest number of entries its path or why there is
/// none, a withdrawal its tests, how much is held and by whom, an order what its
/// firings do or why it is none, a conversion what sort of day or date it is
/// given. All but plans, largest numbers and conversions are read at a limit.
fn shows(limit: Limit, fields: &[&str]) -> String {
    match *fields {
        ["H", plan, _, calls, answers, _] => {
            let made = parts(calls, ',').zip(parts(answers, '|').skip(1));
            let outcomes: BTreeSet<String> = made.map(|(c, a)| outcome(c, a)).collect();
            let ending = ending(limit, plan, records(calls));
            let windows = windows_of_history(limit, plan, records(calls));
            format!("{:?} {outcomes:?} {ending:?} {windows:?}", height(plan))
        }
        ["U", plan, journal, output] => {
            let output = String::from_utf8(numbers(output, 2)).unwrap_or_default();
            let firsts: BTreeSet<&str> = output.lines().filter_map(|l| l.get(..1)).collect();
            let journal = numbers(journal, 2);
            let ending = ending(limit, plan, run_records(&journal));
            let windows = windows_of_history(limit, plan, run_records(&journal));
            format!("{firsts:?} {ending:?} {windows:?}")
        }
        ["P", plan, "3"] => format!("3 {:?}", faults::fall(&numbers(plan, 2))),
        ["P", plan, "25"] => window_faults(&numbers(plan, 2)),
        ["P", plan, "27"] => rights_faults(&numbers(plan, 2)),
        ["P", plan, answer] => {
            let tracks: String = parts(answer, ',').take(1).collect();
            let records = plan::read_records(&numbers(plan, 2));
            let has = records.map_or((false, false), |records| {
                (!records.windows.is_empty(), records.rights.len() > 1)
            });
            format!("{tracks} {has:?}")
        }
        ["L", "", "", call, answer, _] if call.starts_with(['D', 'G']) => conversion(call, answer),
        ["L", plan, "", call, answer, ""] if call.starts_with('M') => {
            largest(&numbers(plan, 2), call, answer)
        }
        ["L", plan, before, call, "R24" | "", _] => {
            format!("{} {:?}", &call[..1], differing(limit, plan, before))
        }
        ["L", plan, before, call, answer, after] => match plan::read(&numbers(plan, 2)) {
            Ok(plan) if answer == "R18" => violations(limit, &plan, &numbers(before, 4)),
            Ok(plan) if answer.starts_with('D') => {
                let (before, after) = (numbers(before, 4), numbers(after, 4));
                let roots = parted(limit, &plan, &before).then(|| standings(limit, &plan, &before));
                let changes = changes(limit, &plan, [&before, &after]);
                let windows = windows_of_call(limit, fields[1], fields[2], call, answer);
                let left = leaves(limit, fields[1], fields[2], call, answer);
                let outcome = outcome(call, answer);
                format!("{outcome} {changes} {roots:?} {windows:?} {left:?}")
            }
            Ok(_) if answer == "R26" => day_refused(&numbers(before, 4), call),
            Ok(plan) if answer == "R28" => right_lacked(limit, &plan, &numbers(before, 4), call),
            _ => outcome(call, answer),
        },
        ["W", plan, _, words, _, tests, _] => {
            let read = read(limit, plan, words);
            read.map_or(String::new(), |(plan, ledger)| {
                format!("{tests} {}", holding(&plan, &ledger))
            })
        }
        ["O", plan, _, words, tracks, _] => {
            let tracks = parts(tracks, ',').filter_map(|t| t.parse().ok());
            let read = read(limit, plan, words);
            read.map_or(String::new(), |(plan, ledger)| {
                firings(&plan, ledger, &tracks.collect::<Vec<usize>>())
            })
        }
        _ => String::new(),
    }
}

/// A plan and a ledger of it.
fn read(limit: Limit, plan: &str, words: &str) -> Option<(Plan, Ledger)> {
    let plan = plan::read(&numbers(plan, 2)).ok()?;
    let ledger = Ledger::decode(limit, &plan, &numbers(words, 4));
    Some((plan, ledger))
}

/// Whether a ledger is over, holds no entry, one or more, and holds some in a
/// hosted track.
fn holding(plan: &Plan, ledger: &Ledger) -> String {
    let held = ledger.total_held().min(2);
    let mut tracks = 0..plan.track_count();
    let hosted = tracks.any(|t| !plan.is_root(t) && ledger.tracks[t].held() > 0);
    format!("{} {held} {hosted}", ledger.is_over())
}

/// Of firings one after the other: how many there are, whether some are of hosted
/// tracks, deviate or put tracks to sleep, and whether the last leaves none ready
/// or the ledger over; of the first that may not be done, why it may not.
fn firings(plan: &Plan, mut ledger: Ledger, tracks: &[usize]) -> String {
    let awake = |ledger: &Ledger| ledger.tracks.iter().filter(|t| t.is_awake()).count();
    let before = awake(&ledger);
    let mut deviates = false;
    for (fired, &track) in tracks.iter().enumerate() {
        match rules::fire_freely(plan, &mut ledger, track) {
            Ok(entry) => deviates |= entry.deviation != NONE,
            Err(_) => return format!("{} {}", obstacle(plan, &ledger, track), fired > 0),
        }
    }
    let firings = tracks.len().min(3);
    let hosted = tracks.iter().any(|&t| !plan.is_root(t));
    let (none, over) = (rules::ready(plan, &ledger) == 0, ledger.is_over());
    let sleeps = awake(&ledger) < before;
    format!("{firings} {hosted} {deviates} {sleeps} {none} {over}")
}

/// Why a track may not be fired.
fn obstacle(plan: &Plan, ledger: &Ledger, track: usize) -> String {
    if track >= plan.track_count() {
        return "no track".to_string();
    }
    let own = &ledger.tracks[track];
    let open = ledger.has_open_scope(plan, track);
    match own.mode {
        Mode::Undoing => format!("{} {open}", own.held() > 0),
        mode => format!("{mode:?}"),
    }
}

/// Of a track's largest number of entries: the figure, whether there is such a
/// track, whether it is hosted, and of its path the length, the codes and the
/// replacements; of a plan refused as 29 why it is.
fn largest(plan: &[u8], call: &str, answer: &str) -> String {
    let track: Option<usize> = call.strip_prefix('M').and_then(|t| t.parse().ok());
    let (plan, track) = match (plan::read(plan), track) {
        (Ok(plan), Some(track)) => (plan, track),
        _ => return answer.to_string(),
    };
    let exists = track < plan.track_count();
    match paths::largest(&plan, track) {
        Ok(Largest { figure, path }) if exists => {
            let steps = path.iter().map(|&n| &plan.transitions()[usize::from(n)]);
            let passed = steps.map(|x| (x.code != 0, plan.replacement(x.destination) != 0));
            let passed: Vec<(bool, bool)> = passed.collect();
            let first = plan.replacement(plan.first_state(track)) != 0;
            format!("{figure} {} {first} {passed:?}", plan.is_root(track))
        }
        Ok(_) => "no track".to_string(),
        Err(_) => format!("{:?} {exists}", faults::unbound(&plan)),
    }
}

/// The clauses violated, and for a finish left to do how the roots stand.
fn violations(limit: Limit, plan: &Plan, words: &[u16]) -> String {
    let violated = ledger::violated(limit, plan, words);
    let left = violated == [Clause::NoFinishLeft];
    let roots = left.then(|| standings(limit, plan, words));
    format!("{violated:?} {roots:?}")
}

/// The forms of 25 that a plan has.
fn window_faults(plan: &[u8]) -> String {
    match plan::read_records(plan) {
        Ok(records) => format!("25 {:?}", faults::window_faults(&records)),
        Err(_) => String::new(),
    }
}

/// The forms of 27 that a plan has.
fn rights_faults(plan: &[u8]) -> String {
    match plan::read_records(plan) {
        Ok(records) => format!("27 {:?}", faults::rights_faults(&records)),
        Err(_) => String::new(),
    }
}

/// Of a call refused as 28: its letter, the rights that the society has
/// somewhere, and whether a track to be fired is ready and under a root.
fn right_lacked(limit: Limit, plan: &Plan, words: &[u16], call: &str) -> String {
    let (society, track) = match records(call).next() {
        Some(Record::Event(_, _, society)) | Some(Record::Signal(society)) => (society, None),
        Some(Record::Fire(track, society)) => (society, Some(usize::from(track))),
        _ => return String::new(),
    };
    let ledger = Ledger::decode(limit, plan, words);
    let ready = track.map(|t| (rules::may_fire(plan, &ledger, t), plan.is_root(t)));
    let rights = [Right::Move, Right::Signal, Right::Fire];
    let has = rights.map(|right| plan.allows_somewhere(society, right));
    format!("R28 {} {has:?} {ready:?}", &call[..1])
}

/// How a day is refused: out of range or falling, and by how much.
fn day_refused(words: &[u16], call: &str) -> String {
    let day = match records(call).next() {
        Some(Record::Event(_, day, _)) => day,
        _ => return String::new(),
    };
    let last = ledger::day_of(words);
    let over = words[ledger::LEADING_WORDS] == 0;
    let beyond = (day < Term::RANGE.first, day > Term::RANGE.last);
    format!("R26 {over} {beyond:?} {} {}", day < 0, day + 1 == last)
}

/// Of a day its season or the side of the range that it lies on; of a date
/// whether it is before day 0 and in February, or which of its fields is wrong.
fn conversion(call: &str, answer: &str) -> String {
    let refused = answer == "R26";
    let below = [call, answer].iter().any(|text| text.starts_with("D-"));
    let date = call.strip_prefix('G').or_else(|| answer.strip_prefix('D'));
    let fields = date.unwrap_or_default().split(['-', ',']);
    match fields
        .filter_map(|field| field.parse().ok())
        .collect::<Vec<u16>>()[..]
    {
        [year, month, day] if refused => {
            let fits = ((1600..2400).contains(&year), (1..=12).contains(&month));
            format!("no day {fits:?} {} {}", day == 0, day > 31)
        }
        [_, month, _] if call.starts_with('G') => format!("day {below} {}", month == 2),
        [_, month, _] => format!("date {}", (month - 1) / 3),
        _ => format!("no date {below}"),
    }
}

fn height(plan: &str) -> Option<u32> {
    let plan = plan::read(&numbers(plan, 2)).ok()?;
    plan.heights().into_iter().max()
}

/// A call's letter and its refusal, whether an event closed, or whether a
/// firing deviated.
fn outcome(call: &str, answer: &str) -> String {
    let letter = &call[..1];
    match letter {
        _ if answer.starts_with('R') => format!("{letter}{answer}"),
        "E" => format!("E{}", !answer.ends_with(",0")),
        "F" => format!("F{}", !answer.ends_with(",65535")),
        _ => letter.to_string(),
    }
}

/// The modes that changed, and whether a track fell asleep with its host.
fn changes(limit: Limit, plan: &Plan, [before, after]: [&[u16]; 2]) -> String {
    let mode = |words, t: usize| track_words(limit, words, t)[0];
    let modes = |t: usize| (mode(before, t), mode(after, t));
    let changed = |t: &usize| modes(*t).0 != modes(*t).1;
    let falls = |t: usize| changed(&t) && modes(t).1 == 0;
    let tracks = 0..plan.track_count();
    let climbs = tracks
        .clone()
        .any(|t| falls(t) && plan.host_track(t).map_or(false, falls));
    let mut pairs: Vec<(u16, u16)> = tracks.filter(changed).map(modes).collect();
    pairs.sort_unstable();
    format!("{pairs:?} {climbs}")
}

/// Numbers of so many hex digits each.
fn numbers<Number: TryFrom<u32>>(hex: &str, digits: usize) -> Vec<Number> {
    let starts = (0..hex.len()).step_by(digits);
    starts
        .filter_map(|at| u32::from_str_radix(hex.get(at..at + digits)?, 16).ok())
        .filter_map(|number| number.try_into().ok())
        .collect()
}

/// A line of `vectors`, with its sort and its size.
struct Line {
    text: String,
    sort: Sort,
    size: usize,
}

impl Line {
    fn of(text: String) -> Option<Line> {
        let (limit, fields) = limit_and_fields(&text)?;
        let (sort, size) = sort_of(limit, &fields)?;
        Some(Line { text, sort, size })
    }
}

/// What a line shows, and at which limit.
fn shown(line: &str) -> String {
    let read = limit_and_fields(line);
    read.map_or(String::new(), |(limit, fields)| {
        format!("{} {}", limit.0, shows(limit, &fields))
    })
}

/// The cases of a share, those that show something new first, and how many
/// were too large.
fn choose(share: &Share, lines: &[Line]) -> (Vec<Case>, usize) {
    let mut seen: HashMap<String, usize> = HashMap::new();
    let mut cases = Vec::new();
    let mut dropped = 0;
    for (number, line) in lines.iter().enumerate() {
        if line.sort != share.sort {
            continue;
        }
        if line.size > share.most_size {
            dropped += 1;
            continue;
        }
        let before = seen.entry(shown(&line.text)).or_default();
        let (line, rank) = (line.text.clone(), *before);
        cases.push(Case { number, line, rank });
        *before += 1;
    }
    cases.sort_by_key(|case| case.rank);
    cases.truncate(share.wanted);
    (cases, dropped)
}

/// A case's theorem, under the line that it comes from. A history's has two
/// parts, its answers and its words, and so has a largest number's, its answer
/// and its figure. A withdrawal's has four, three tests and a number, an order's
/// three, that it is one, ready's number and the entries held.
fn theorem(sort: Sort, case: &Case) -> Option<String> {
    let Case { number, line, .. } = case;
    let says = statement(&fields_of(line))?;
    let (unfolded, proof) = match sort {
        Sort::History | Sort::HalfWithdrawn => (String::new(), "(refl, refl)"),
        Sort::Largest | Sort::Unbounded | Sort::NoLargest => (format!(" {BOUNDS}"), "(refl, refl)"),
        Sort::Withdrawal => (String::new(), "(refl, refl, refl, refl)"),
        Sort::Order => (String::new(), "(refl, refl, refl)"),
        _ => (String::new(), "refl"),
    };
    let name = format!("case_{number}");
    Some(format!(
        "-- {line}\npub {name} : {says}\nunfolding computing{unfolded}\n{name} = {proof}\n"
    ))
}

/// Writes the files and the list of them.
fn write(folder: &Path, theorems: &[String]) -> io::Result<()> {
    let mut modules = String::from("-- Cases of the second program.\n");
    for (number, chunk) in theorems.chunks(FILE).enumerate() {
        let text = format!(
            "-- Cases of the second program.\n{IMPORTS}\n{}",
            chunk.join("\n")
        );
        fs::write(folder.join(format!("Cases{number}.antt")), text)?;
        modules.push_str(&format!("pub mod Cases{number}\n"));
    }
    fs::write(folder.join("Lib.antt"), modules)
}

fn run(folder: &Path, shares: &[Share]) -> io::Result<()> {
    let lines: Vec<String> = io::stdin().lines().collect::<Result<_, _>>()?;
    let lines: Option<Vec<Line>> = lines.into_iter().map(Line::of).collect();
    let lines = lines.ok_or(io::ErrorKind::InvalidData)?;
    let mut theorems = Vec::new();
    for share in shares {
        let (cases, dropped) = choose(share, &lines);
        let (name, taken, wanted) = (share.name, cases.len(), share.wanted);
        println!("{name}: {taken} of {wanted} wanted, {dropped} dropped as too large");
        for case in &cases {
            let theorem = theorem(share.sort, case);
            theorems.push(theorem.ok_or(io::ErrorKind::InvalidData)?);
        }
    }
    println!("{} cases", theorems.len());
    write(folder, &theorems)
}

fn main() -> ExitCode {
    let given: Vec<String> = std::env::args().skip(1).collect();
    let counts = given.iter().skip(1).filter_map(|a| a.parse().ok());
    let counts: Vec<usize> = counts.collect();
    let done = match (given.first(), &counts[..]) {
        (Some(folder), &[histories, plans, ledgers]) => {
            run(Path::new(folder), &shares(histories, plans, ledgers))
        }
        _ => {
            eprintln!("usage: theorems FOLDER HISTORIES PLANS LEDGERS < lines of vectors");
            return ExitCode::FAILURE;
        }
    };
    match done {
        Ok(()) => ExitCode::SUCCESS,
        Err(error) => {
            eprintln!("theorems: {error}");
            ExitCode::FAILURE
        }
    }
}
