//! How many entries a plan can ask for: the largest number along any path of a track, such a path, and refusal 29.

mod sample_plan;

use retraction::raw::{begin, entries, event, largest, largest_step, read};
use retraction::Refusal::{NoRecord, NoTrack, Rights, SameEvent, Unbounded, Window};
use retraction::{Largest, Limit, Plan, Refusal, NONE};
use sample_plan::{begun, plan, SOCIETY};

/// The options of a call at the main program's limit.
const MAIN: u32 = Limit::Main.options();

/// Source, event, code, deviation and destination.
type Step = [u16; 5];

/// What a plan is written from: hosts, track, final field and replacement of each state, transitions.
#[derive(Clone, Debug)]
struct Records {
    hosts: Vec<u16>,
    states: Vec<[u16; 3]>,
    steps: Vec<Step>,
}

impl Records {
    /// One root with so many states, none of them final, and these steps.
    fn of_root(states: u16, steps: &[Step]) -> Records {
        Records {
            hosts: vec![NONE],
            states: (0..states).map(|_| [0; 3]).collect(),
            steps: steps.to_vec(),
        }
    }

    /// The plan's bytes, with every right of one society over each root.
    fn bytes(&self) -> Vec<u8> {
        let mut words = Vec::new();
        let roots = (0..).zip(&self.hosts).filter(|(_, &host)| host == NONE);
        words.extend(self.hosts.iter().flat_map(|&host| [6, 1, host]));
        for &[track, last, replacement] in &self.states {
            words.extend([10, 2, track, last, replacement]);
        }
        for &[source, event, code, deviation, destination] in &self.steps {
            words.extend([14, 3, source, event, code, deviation, destination]);
        }
        words.extend(roots.flat_map(|(root, _)| [10, 6, SOCIETY, root, 7]));
        words.extend([4, 4]);
        words.iter().flat_map(|word| word.to_le_bytes()).collect()
    }

    fn plan(&self) -> Plan {
        Plan::read(self.bytes()).expect("an accepted plan")
    }

    fn first_state(&self, track: u16) -> u16 {
        let own = |&[of, ..]: &[u16; 3]| of == track;
        self.states.iter().position(own).expect("a state") as u16
    }

    /// One for a hosting state with a replacement.
    fn of_state(&self, state: u16) -> u16 {
        let [_, _, replacement] = self.states[usize::from(state)];
        u16::from(self.hosts.contains(&state) && replacement != 0)
    }

    /// The entries along a path from a state, its first and last state included; `None` where it is no path.
    fn along(&self, state: u16, path: &[u16]) -> Option<u16> {
        let mut at = state;
        let mut entries = self.of_state(at);
        for &number in path {
            let &[source, _, code, _, destination] = self.steps.get(usize::from(number))?;
            if source != at {
                return None;
            }
            at = destination;
            entries += u16::from(code != 0) + self.of_state(at);
        }
        Some(entries)
    }

    /// The most along any path from a state, every one of them followed.
    fn most(&self, state: u16) -> u16 {
        let onwards = |&[source, _, code, _, destination]: &Step| {
            (source == state).then(|| u16::from(code != 0) + self.most(destination))
        };
        let most = self.steps.iter().filter_map(onwards).max();
        self.of_state(state) + most.unwrap_or(0)
    }

    /// What the call answers of a track. Its path is one, and has as many entries as it says; step by step it is the same; beyond it is nothing.
    fn asked(&self, track: u16) -> Result<u16, Refusal> {
        let bytes = self.bytes();
        let Largest { figure, path } = self.plan().largest(track)?;
        assert_eq!(largest(&bytes, track), Ok((figure, path.len() as u16)));
        for (index, &number) in (0..).zip(&path) {
            assert_eq!(largest_step(&bytes, track, index), Ok(Some(number)));
        }
        for beyond in [path.len() as u16, path.len() as u16 + 1, 256, NONE] {
            assert_eq!(largest_step(&bytes, track, beyond), Ok(None));
        }
        let along = self.along(self.first_state(track), &path);
        assert_eq!(along, Some(figure), "{path:?}");
        Ok(figure)
    }

    /// The figures of all tracks.
    fn figures(&self) -> Result<Vec<u16>, Refusal> {
        (0..self.hosts.len() as u16)
            .map(|track| self.asked(track))
            .collect()
    }
}

/// A step without a deviation.
fn step(source: u16, event: u16, code: u16, destination: u16) -> Step {
    [source, event, code, NONE, destination]
}

/// Plan P.
fn sample() -> Records {
    Records {
        hosts: vec![NONE, 1, 1],
        states: vec![
            [0, 0, 0],
            [0, 0, 90],
            [0, 1, 0],
            [1, 0, 0],
            [1, 1, 0],
            [2, 0, 0],
            [2, 0, 0],
            [2, 1, 0],
        ],
        steps: vec![
            step(0, 10, 50, 1),
            step(1, 13, 0, 2),
            step(3, 11, 51, 4),
            step(5, 12, 52, 6),
            step(6, 14, 54, 7),
        ],
    }
}

/// The refusal of both calls, for a track and for one that does not exist.
fn refused(plan: &[u8], refusal: Refusal) {
    for track in [0, 32, NONE] {
        assert_eq!(largest(plan, track), Err(refusal));
        for index in [0, 1, NONE] {
            assert_eq!(largest_step(plan, track, index), Err(refusal));
        }
    }
}

#[test]
fn the_sample_can_ask_for_2_1_and_2() -> Result<(), Refusal> {
    assert_eq!(sample().bytes(), plan());
    assert_eq!(sample().figures(), Ok(vec![2, 1, 2]));
    let all = sample().plan().largest_of_all()?;
    let figures: Vec<u16> = all.iter().map(|largest| largest.figure).collect();
    assert_eq!(figures, [2, 1, 2]);
    assert_eq!((&all[1].path, &all[2].path), (&vec![2], &vec![3, 4]));
    Ok(())
}

#[test]
fn a_track_that_does_not_exist_has_no_entry_and_no_path() {
    let nothing = Largest {
        figure: 0,
        path: vec![],
    };
    for track in [3, 31, 32, NONE] {
        assert_eq!(largest(&plan(), track), Ok((0, 0)));
        assert_eq!(sample().plan().largest(track), Ok(nothing.clone()));
        for index in [0, 1, NONE] {
            assert_eq!(largest_step(&plan(), track, index), Ok(None));
        }
    }
}

#[test]
fn a_track_without_steps_has_the_empty_path() {
    let records = Records::of_root(1, &[]);
    assert_eq!(records.figures(), Ok(vec![0]));
    assert_eq!(
        records.plan().largest(0).map(|found| found.path),
        Ok(vec![])
    );
}

/// Three steps without a code, or one with: the shorter path has more.
#[test]
fn entries_count_and_not_steps() {
    let steps = [
        step(0, 1, 0, 1),
        step(1, 1, 0, 2),
        step(2, 1, 0, 3),
        step(0, 2, 7, 3),
    ];
    let records = Records::of_root(4, &steps);
    assert_eq!(records.figures(), Ok(vec![1]));
    assert_eq!(
        records.plan().largest(0).map(|found| found.path),
        Ok(vec![3])
    );
}

/// The first state's replacement counts, and that of a state where the path may end.
#[test]
fn the_first_and_the_last_state_are_included() {
    let mut records = Records {
        hosts: vec![NONE, 0, 1],
        states: vec![[0, 0, 80], [0, 0, 90], [1, 0, 0], [2, 0, 0]],
        steps: vec![step(0, 1, 0, 1)],
    };
    assert_eq!(records.figures(), Ok(vec![2, 0, 0]));
    records.states[0][2] = 0;
    assert_eq!(records.figures(), Ok(vec![1, 0, 0]));
    records.states[1][2] = 0;
    assert_eq!(records.figures(), Ok(vec![0, 0, 0]));
}

/// What no path from the first state comes to does not count.
#[test]
fn only_what_is_reached_counts() {
    let steps = [step(0, 1, 7, 1), step(2, 1, 7, 1), step(3, 1, 7, 2)];
    assert_eq!(Records::of_root(4, &steps).figures(), Ok(vec![1]));
}

/// A row of 128 states, two steps between neighbours: a track that can hold 32, or 8, may be asked for 127.
#[test]
fn a_figure_above_32_is_told_as_it_is() {
    let step_of = |number: u16| step(number % 127, 1 + number / 127, 7, number % 127 + 1);
    let steps: Vec<Step> = (0..256).map(step_of).collect();
    let mut records = Records::of_root(128, &steps);
    assert_eq!(records.figures(), Ok(vec![127]));
    records.steps.truncate(33);
    assert_eq!(records.figures(), Ok(vec![33]));
    records.steps.truncate(32);
    assert_eq!(records.figures(), Ok(vec![32]));
}

/// Every state of a root but the last hosts a track: 31 replacements beside 31 codes.
#[test]
fn replacements_and_codes_add_up() {
    let mut records = Records::of_root(32, &[]);
    records.steps = (0..31).map(|state| step(state, 1, 7, state + 1)).collect();
    for hosted in 0..31 {
        records.hosts.push(hosted);
        records.states[usize::from(hosted)][2] = 90;
        records.states.push([hosted + 1, 0, 0]);
    }
    let mut figures = vec![0; 32];
    figures[0] = 62;
    assert_eq!(records.figures(), Ok(figures));
}

#[test]
fn a_cycle_is_29() {
    let itself = [step(0, 1, 7, 0)];
    let without_code = [step(0, 1, 0, 0)];
    let of_two = [step(0, 1, 7, 1), step(1, 1, 0, 0)];
    let of_three = [step(0, 1, 7, 1), step(1, 1, 7, 2), step(2, 1, 7, 0)];
    let not_reached = [step(0, 1, 7, 1), step(2, 1, 7, 3), step(3, 1, 7, 2)];
    for steps in [&itself[..], &without_code, &of_two, &of_three, &not_reached] {
        let plan = Records::of_root(4, steps).bytes();
        assert!(read(&plan).is_ok());
        refused(&plan, Unbounded);
    }
}

/// All tracks are refused for a cycle in one, hosted or not.
#[test]
fn a_cycle_in_any_track_is_29() {
    let mut records = sample();
    records.steps.push(step(6, 15, 0, 5));
    refused(&records.bytes(), Unbounded);
    assert_eq!(records.plan().largest_of_all(), Err(Unbounded));
}

/// On a step out of the first state, and on one that no path comes to.
#[test]
fn a_deviation_is_29() {
    for source in [0, 2] {
        let deviating = [source, 1, 7, source, 1];
        let plan = Records::of_root(3, &[deviating]).bytes();
        assert!(read(&plan).is_ok());
        refused(&plan, Unbounded);
    }
}

/// Two ways that meet again are no cycle.
#[test]
fn ways_that_meet_are_no_cycle() {
    let steps = [
        step(0, 1, 7, 1),
        step(0, 2, 0, 2),
        step(1, 1, 0, 3),
        step(2, 1, 0, 3),
        step(3, 1, 7, 4),
    ];
    assert_eq!(Records::of_root(5, &steps).figures(), Ok(vec![2]));
}

/// 29 comes after the plan's own refusals, and no other call has it.
#[test]
fn after_27_and_for_these_calls_alone() {
    refused(&[], NoRecord);
    refused(&[4, 0, 4, 0], NoTrack);
    let looping = Records::of_root(1, &[step(0, 1, 7, 0)]);
    let twice = Records::of_root(1, &[step(0, 1, 7, 0), step(0, 1, 7, 0)]);
    refused(&twice.bytes(), SameEvent);
    let mut plan = looping.bytes();
    let mut ledger = vec![7; Limit::Main.ledger_words(1)];
    assert_eq!(begin(&plan, &mut ledger, MAIN), Ok(()));
    let end = plan.len() - 4;
    plan.splice(end..end, [10, 0, 6, 0, 2, 0, 1, 0, 7, 0]);
    refused(&plan, Rights);
    let rights = 6 + 10 + 14;
    plan.splice(rights..rights, [14, 0, 5, 0, 9, 0, 0, 0, 0, 0, 0, 0, 0, 0]);
    refused(&plan, Window);
}

/// A window of one day changes nothing, nor does it that nobody has a right.
#[test]
fn windows_and_rights_do_not_count() {
    let mut plan = plan();
    let rights = 3 * 6 + 8 * 10 + 5 * 14;
    plan.splice(rights..rights + 10, []);
    plan.splice(rights..rights, [14, 0, 5, 0, 0, 0, 9, 0, 0, 0, 9, 0, 0, 0]);
    assert_eq!(
        [0, 1, 2].map(|track| largest(&plan, track).map(|found| found.0)),
        [Ok(2), Ok(1), Ok(2)]
    );
}

/// Numbers from a seed.
struct Drawn(u64);

impl Drawn {
    /// One below a bound.
    fn below(&mut self, bound: u16) -> u16 {
        self.0 = self
            .0
            .wrapping_mul(6_364_136_223_846_793_005)
            .wrapping_add(1);
        (self.0 >> 33) as u16 % bound
    }

    /// A plan of a root and perhaps tracks inside its states. Steps lead from a state to a later one of its track, in any order; now and then one
    /// leads anywhere.
    fn records(&mut self) -> Records {
        let own = 2 + self.below(5);
        let hosted = self.below(3);
        let hosts: Vec<u16> = (0..hosted).map(|_| self.below(own)).collect();
        let mut states: Vec<[u16; 3]> = (0..own).map(|_| [0; 3]).collect();
        for &host in &hosts {
            states[usize::from(host)][2] = 90 * self.below(2);
        }
        for track in 1..=hosted {
            states.extend([[track, 0, 0]; 3]);
        }
        let mut steps: Vec<Step> = Vec::new();
        for event in 1..=self.below(12) {
            let [from, to] = [0, 0].map(|_| self.below(states.len() as u16));
            let [low, high] = [from.min(to), from.max(to)];
            let same = states[usize::from(low)][0] == states[usize::from(high)][0];
            if same && (low < high || self.below(20) == 0) {
                steps.push(step(low, event, 7 * self.below(2), high));
            }
        }
        // The order of the records says nothing of the order of the path.
        for place in 1..steps.len() {
            let other = usize::from(self.below(place as u16 + 1));
            steps.swap(place, other);
        }
        let hosts = [vec![NONE], hosts].concat();
        Records {
            hosts,
            states,
            steps,
        }
    }
}

/// Small plans, all of whose paths are followed: none has more entries.
#[test]
fn no_path_has_more() {
    let mut drawn = Drawn(6);
    let mut unbounded = 0;
    for _ in 0..3_000 {
        let records = drawn.records();
        if records.steps.iter().any(|step| step[0] == step[4]) {
            refused(&records.bytes(), Unbounded);
            unbounded += 1;
            continue;
        }
        let tracks = 0..records.hosts.len() as u16;
        let most: Vec<u16> = tracks
            .map(|track| records.most(records.first_state(track)))
            .collect();
        assert_eq!(records.figures(), Ok(most), "{records:?}");
    }
    assert!((50..1_500).contains(&unbounded), "{unbounded}");
}

/// Once its scope has closed, the root of plan P holds as many as it can ask for.
#[test]
fn the_sample_comes_to_its_figure() {
    let (plan, mut ledger) = begun(Limit::Main);
    for number in [10, 11, 12, 14] {
        assert!(event(&plan, &mut ledger, number, 0, SOCIETY, MAIN).is_ok());
        for track in 0..3 {
            let held = entries(&plan, &ledger, track, MAIN).len() / 2;
            assert!(held <= usize::from(sample().asked(track).expect("no cycle")));
        }
    }
    assert_eq!(entries(&plan, &ledger, 0, MAIN), [50, NONE, 90, NONE]);
}

/// Histories of events: no track holds more than the figure, and some hold as much.
#[test]
fn no_history_makes_a_track_hold_more() -> Result<(), Refusal> {
    let mut drawn = Drawn(7);
    let mut full = 0;
    for _ in 0..300 {
        let plan = drawn.records().plan();
        let figures = match plan.largest_of_all() {
            Ok(all) => all.into_iter().map(|largest| usize::from(largest.figure)),
            Err(_) => continue,
        };
        let figures: Vec<usize> = figures.collect();
        let mut ledger = plan.begin(Limit::Main);
        for _ in 0..40 {
            let event = 1 + drawn.below(12);
            let _ = ledger.event(event, 0, SOCIETY)?;
            for (track, &figure) in (0..).zip(&figures) {
                let held = ledger.entries(track).count();
                assert!(held <= figure, "track {track} holds {held}, not {figure}");
                full += usize::from(held == figure && figure > 1);
            }
        }
    }
    assert!(full >= 100, "{full}");
    Ok(())
}
