//! What is timed: plan P, the samples, a plan of two roots, random plans of
//! three sizes, the largest one with windows and one shared by societies, with
//! ledgers that a history left at either limit, on each of which a call does
//! something. All events are on day 0, on which no window keeps a track from
//! moving.

use std::fs;
use std::io;
use std::path::Path;

use bench::fast;
use bench::sides::Call;
use retraction::Limit;
use second::journal::{self, Record, MAX_BYTES};
use second::ledger::Ledger;
use second::limit;
use second::plan::{self, members, Plan, Records, Right, MAX_RIGHTS};
use second::rules;
use testing::generate::rng::Rng;
use testing::generate::{journals, plans, societies};
use testing::samples;

use crate::calls::{Given, CALLS, FINISHING, LARGEST, LARGEST_STEP, LAST_SIGNAL};
use crate::shapes;

/// The day of all events.
const DAY: i32 = 0;

/// The folder of the samples.
const SAMPLES: &str = concat!(env!("CARGO_MANIFEST_DIR"), "/../samples");

/// A plan with a journal for it.
pub struct Case {
    pub name: String,
    pub plan: Vec<u8>,
    pub journal: Vec<u8>,
    read: Plan,
    /// The societies that the plan names.
    societies: Vec<u16>,
}

impl Case {
    /// All plans, each with a journal as long as may be: a short run takes
    /// what the start of a process takes. The random plans are made from a
    /// fixed seed.
    pub fn all() -> io::Result<Vec<Case>> {
        let accepted = |name, plan| Case::new(name, plan).expect("an accepted plan");
        let mut cases = vec![accepted("P", samples::sample())];
        cases.extend(Case::samples(Path::new(SAMPLES))?);
        cases.push(accepted("two roots", shapes::two_roots().encode()));
        cases.push(Case::found("small", (3, 3), (6, 9), (5, 10)));
        cases.push(Case::found("middle", (12, 14), (40, 60), (70, 110)));
        let largest = Case::found("largest", (32, 32), (128, 128), (256, 256));
        let windowed = shapes::windowed(largest.read.records().clone(), 256);
        let shared = shapes::shared(largest.read.records().clone(), MAX_RIGHTS);
        cases.push(largest);
        cases.push(accepted("windows", windowed.encode()));
        cases.push(accepted("societies", shared.encode()));
        for case in &mut cases {
            case.journal = case.lively_journal(MAX_BYTES);
        }
        Ok(cases)
    }

    /// Plans for the largest number of entries alone, with no journal: the
    /// deepest one, 128 states in a row; the same with a cycle; and 32 rows.
    pub fn rows() -> Vec<Case> {
        let deepest = shapes::rows(1, 128, 256);
        let closed = shapes::closed(deepest.clone());
        let many = shapes::rows(32, 128, 256);
        let plans = [
            ("a row", deepest),
            ("a row and back", closed),
            ("32 rows", many),
        ];
        let case = |(name, plan): (&str, Records)| Case::new(name, plan.encode());
        plans.into_iter().filter_map(case).collect()
    }

    fn new(name: &str, plan: Vec<u8>) -> Option<Case> {
        let read = plan::read(&plan).ok()?;
        Some(Case {
            name: name.to_string(),
            plan,
            journal: Vec::new(),
            societies: societies::named(&read),
            read,
        })
    }

    /// The samples' plans, by name.
    fn samples(folder: &Path) -> io::Result<Vec<Case>> {
        let mut folders: Vec<_> = fs::read_dir(folder)?
            .filter_map(|entry| entry.ok().map(|entry| entry.path()))
            .filter(|path| path.join("plan.bin").is_file())
            .collect();
        folders.sort();
        let sample = |path: &Path| {
            let name = path
                .file_name()
                .map_or_else(String::new, |name| name.to_string_lossy().replace('_', " "));
            Ok(Case::new(&name, fs::read(path.join("plan.bin"))?))
        };
        let cases: io::Result<Vec<_>> = folders.iter().map(|path| sample(path)).collect();
        Ok(cases?.into_iter().flatten().collect())
    }

    /// The first generated plan, its windows left out and led by one society,
    /// whose counts of tracks, states and transitions lie in the ranges, whose
    /// histories do all the calls, and that does not run dry.
    fn found(
        name: &str,
        tracks: (usize, usize),
        states: (usize, usize),
        transitions: (usize, usize),
    ) -> Case {
        let within = |n: usize, (low, high): (usize, usize)| low <= n && n <= high;
        let fits = |case: &Case| {
            within(case.read.track_count(), tracks)
                && within(case.read.state_count(), states)
                && within(case.read.transition_count(), transitions)
                && CALLS
                    .iter()
                    .all(|call| case.given(call, 4, Limit::Main).len() == 4)
                && case.stays_lively()
        };
        let made = (0..).map(|index| plans::records(&mut Rng::for_case(1, 21, index), 32));
        made.map(|records| shapes::led(shapes::windowed(records, 0)).encode())
            .filter_map(|plan| Case::new(name, plan))
            .find(fits)
            .expect("plans go on for ever")
    }

    /// The name, with tracks, states, transitions, windows and rights records.
    pub fn label(&self) -> String {
        let records = self.read.records();
        let counts = [
            records.tracks.len(),
            records.states.len(),
            records.transitions.len(),
            records.windows.len(),
            records.rights.len(),
        ];
        let counts = counts.map(|count| count.to_string()).join(", ");
        format!("{} ({counts})", self.name)
    }

    /// Ledgers kept at a limit on which the call is accepted and does something;
    /// at most so many, fewer where few histories lead to one. Few do to a firing
    /// or a signal that finishes, so that more are tried. The calls on the largest
    /// number of entries are lent none, and made of each track.
    pub fn given(&self, call: &str, count: usize, limit: Limit) -> Vec<Given> {
        if call == LARGEST || call == LARGEST_STEP {
            return self.largest(call);
        }
        let mut given = Vec::new();
        let second = limit::Limit(limit.entries());
        let rare = [FINISHING, LAST_SIGNAL].contains(&call);
        let histories = if rare { 400 } else { 40 };
        for index in 0..histories {
            let mut rng = Rng::for_case(1, 22, index);
            let (records, _) = journals::history(&mut rng, second, &self.read);
            let mut ledger = rules::begin(second, &self.read);
            for record in records.into_iter().map(on_the_day) {
                if let Some(call) = self.call(call, &ledger, record) {
                    let words = ledger.words();
                    given.push(Given { words, call, limit });
                }
                if given.len() == count {
                    return given;
                }
                journal::perform(&self.read, &mut ledger, record);
            }
        }
        given
    }

    /// The largest number of entries of each track, or the step halfway along
    /// its path.
    fn largest(&self, call: &str) -> Vec<Given> {
        let tracks = 0..self.read.track_count() as u16;
        let of_track = |track: u16| match fast::largest(&self.plan, track) {
            Ok((_, length)) if call == LARGEST_STEP => Call::LargestStep(track, length / 2),
            _ => Call::Largest(track),
        };
        let given = |track| Given::main(Vec::new(), of_track(track));
        tracks.map(given).collect()
    }

    /// Whether the largest number of entries is refused.
    pub fn is_unbounded(&self) -> bool {
        fast::largest(&self.plan, 0).is_err()
    }

    /// The call, if it is worth timing here: an event that moves, a signal
    /// that turns, a firing that is allowed, one that ends the link or a signal
    /// that does, entries that are held.
    fn call(&self, name: &str, ledger: &Ledger, record: Record) -> Option<Call> {
        if ledger.is_over() {
            return None;
        }
        let ready = || members(rules::ready(&self.read, ledger));
        let firing = |track: usize| Some((track as u16, self.firer(track)?));
        let ends = |&(track, society): &(u16, u16)| finishes(&self.read, ledger, track, society);
        let fire = |(track, society)| Call::Fire(track, society);
        let holding = || ledger.tracks.iter().position(|track| track.held() > 0);
        match (name, record) {
            ("begin", _) => Some(Call::Begin),
            ("event", Record::Event(event, day, society)) => {
                let moves = rules::chosen_moves(&self.read, ledger, event, day, society);
                (!moves.is_empty()).then_some(Call::Event(event, day, society))
            }
            ("signal", Record::Signal(society)) => {
                let turned = rules::signal(&self.read, &mut ledger.clone(), society);
                turned
                    .map_or(false, |turned| turned > 0)
                    .then_some(Call::Signal(society))
            }
            ("fire", _) => ready().find_map(firing).map(fire),
            (FINISHING, _) => ready().filter_map(firing).find(ends).map(fire),
            (LAST_SIGNAL, _) => journals::finishing_signal(&self.read, ledger).map(Call::Signal),
            ("ready", _) => Some(Call::Ready),
            ("entries", _) => holding().map(|track| Call::Entries(track as u16)),
            _ => None,
        }
    }

    /// The first society that may fire a track.
    fn firer(&self, track: usize) -> Option<u16> {
        let mut societies = self.societies.iter().copied();
        societies.find(|&society| self.read.allows(society, Right::Fire, track))
    }

    /// The society of whose tracks the most move by an event.
    fn mover(&self, ledger: &Ledger, event: u16) -> u16 {
        let moves = rules::possible_moves(&self.read, ledger, event, DAY);
        let allowed = |society, track| self.read.allows(society, Right::Move, track);
        let moved = |&society: &u16| moves.iter().filter(|&&(t, _)| allowed(society, t)).count();
        let most = self.societies.iter().copied().max_by_key(moved);
        most.unwrap_or(samples::SOCIETY)
    }

    /// A journal of so many bytes: events for three quarters of it, a signal of
    /// each society, a firing that brings the length to that of whole records,
    /// and then firings of the lowest ready track, by each society in turn.
    fn lively_journal(&self, bytes: usize) -> Vec<u8> {
        let mut journal = Vec::new();
        let mut ledger = rules::begin(limit::Limit::MAIN, &self.read);
        let mut rng = Rng::for_case(1, 23, 0);
        while journal.len() < bytes / 4 * 3 {
            let (event, society) = self.lively_event(&mut rng, &ledger);
            let record = Record::Event(event, DAY, society);
            journal::perform(&self.read, &mut ledger, record);
            record.encode(&mut journal);
        }
        for &society in &self.societies {
            Record::Signal(society).encode(&mut journal);
        }
        for &society in self.societies.iter().cycle() {
            match bytes - journal.len() {
                0 => break,
                left if left % 6 == 2 => Record::Fire(0, society).encode(&mut journal),
                _ => Record::FireLowest(society).encode(&mut journal),
            }
        }
        journal
    }

    /// Whether events still move something after many.
    fn stays_lively(&self) -> bool {
        let mut ledger = rules::begin(limit::Limit::MAIN, &self.read);
        let mut rng = Rng::for_case(1, 24, 0);
        (0..400).all(|_| {
            let (event, society) = self.lively_event(&mut rng, &ledger);
            let done = rules::event(&self.read, &mut ledger, event, DAY, society);
            done.map_or(false, |figures| figures.moved > 0)
        })
    }

    /// An event that moves something and is accepted, with its society, most
    /// often one that leaves no more entries held, so that a journal does not
    /// run dry soon.
    fn lively_event(&self, rng: &mut Rng, ledger: &Ledger) -> (u16, u16) {
        let held_after = |(event, society): (u16, u16)| {
            let mut after = ledger.clone();
            let done = rules::event(&self.read, &mut after, event, DAY, society);
            (done.is_ok() && !after.is_over()).then(|| after.total_held())
        };
        let by = |event: u16| (event, self.mover(ledger, event));
        let events = journals::moving_events(&self.read, ledger, |_| true);
        let mut events: Vec<(u16, u16)> = events.into_iter().map(by).collect();
        events.retain(|&event| held_after(event).is_some());
        let held = ledger.total_held();
        let light = |&event: &(u16, u16)| held_after(event).map_or(false, |after| after <= held);
        let light: Vec<(u16, u16)> = events.iter().copied().filter(light).collect();
        let light = rng.pick(&light).filter(|_| rng.chance(95));
        light
            .or_else(|| rng.pick(&events))
            .unwrap_or((1, samples::SOCIETY))
    }
}

/// The record, an event on the day of all events.
fn on_the_day(record: Record) -> Record {
    match record {
        Record::Event(event, _, society) => Record::Event(event, DAY, society),
        other => other,
    }
}

/// Whether firing the track leaves the ledger over.
pub fn finishes(plan: &Plan, ledger: &Ledger, track: u16, society: u16) -> bool {
    let mut after = ledger.clone();
    rules::fire(plan, &mut after, track, society).is_ok() && after.is_over()
}
