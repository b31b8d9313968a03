//! The largest number of entries by each side: the figure is the one found here
//! in another way, and the path, which is free, is a path with so many entries.
//! Plans are made from fixed seeds.

use bench::sides::{Call, Named, Side, SIDES};
use retraction::Limit;
use second::plan::{self, Plan, Records, Transition, MAX_TRACKS, NONE};
use testing::generate::rng::Rng;
use testing::generate::{damage, plans};
use testing::samples::{every_right, looping, sample_records, state, step, track};

/// Bits 16 to 31 and 32 to 47 of a side's answer, or its refusal. The call is
/// given the plan alone, and reads no limit.
fn figures(side: Side, plan: &[u8], call: Call) -> Result<(u16, u16), u16> {
    let answer = side(plan, &mut [], call, Limit::default());
    match answer as u16 {
        0 => Ok(((answer >> 16) as u16, (answer >> 32) as u16)),
        refusal => {
            assert_eq!(answer, u64::from(refusal), "a refusal stands alone");
            Err(refusal)
        }
    }
}

/// One for a transition with a code.
fn of_transition(transition: &Transition) -> u16 {
    u16::from(transition.code != 0)
}

/// One for a hosting state with a replacement.
fn of_state(records: &Records, number: usize) -> u16 {
    let hosting = records.tracks.iter().any(|t| usize::from(t.host) == number);
    u16::from(hosting && records.states[number].replacement != 0)
}

/// The most along the paths from each state of at most so many transitions.
fn most(
    records: &Records,
    transitions: usize,
    of_state: impl Fn(usize) -> u16,
    of_transition: impl Fn(&Transition) -> u16,
) -> Vec<u16> {
    let alone: Vec<u16> = (0..records.states.len()).map(of_state).collect();
    let mut most = alone.clone();
    for _ in 0..transitions {
        let mut longer = alone.clone();
        for x in &records.transitions {
            let (source, to) = (usize::from(x.source), usize::from(x.destination));
            longer[source] = longer[source].max(alone[source] + of_transition(x) + most[to]);
        }
        most = longer;
    }
    most
}

/// Whether there is a deviation, or a path of as many transitions as there are
/// states, which comes to one of them twice.
fn is_unbounded(records: &Records) -> bool {
    let states = records.states.len();
    let lengths = most(records, states, |_| 0, |_| 1);
    let deviates = |x: &Transition| x.deviation != NONE;
    records.transitions.iter().any(deviates) || lengths.iter().any(|&n| usize::from(n) >= states)
}

/// The figures of an accepted plan's tracks, or 29.
fn expected(plan: &Plan) -> Result<Vec<u16>, u16> {
    let records = plan.records();
    if is_unbounded(records) {
        return Err(29);
    }
    let states = records.states.len();
    let most = most(records, states, |s| of_state(records, s), of_transition);
    let tracks = 0..plan.track_count();
    let figure = |track| most[usize::from(plan.first_state(track))];
    Ok(tracks.map(figure).collect())
}

/// The entries along a path from a track's first state.
///
/// # Panics
/// If it is no such path.
fn along(plan: &Plan, track: usize, path: &[u16]) -> u16 {
    let mut at = plan.first_state(track);
    let mut entries = of_state(plan.records(), usize::from(at));
    for &number in path {
        let transition = plan.transitions()[usize::from(number)];
        assert_eq!(transition.source, at, "step {number} of {path:?}");
        at = transition.destination;
        entries += of_transition(&transition) + of_state(plan.records(), usize::from(at));
    }
    entries
}

/// The path that a side shows of a track, of which it gives the length; nothing
/// comes beyond it.
fn path(bytes: &[u8], (name, side): Named, track: u16, length: u16) -> Vec<u16> {
    let step = |index| {
        let step = figures(side, bytes, Call::LargestStep(track, index));
        step.expect("accepted as the figure is").0
    };
    for beyond in [length, length + 1, 256, 65_535] {
        assert_eq!(step(beyond), NONE, "{name}, track {track}, beyond {length}");
    }
    (0..length).map(step).collect()
}

/// Asks every side for every track, and some that do not exist, and holds it to
/// what is expected. That is the answer.
fn ask(bytes: &[u8]) -> Result<Vec<u16>, u16> {
    let plan = plan::read(bytes).map_err(|refusal| u16::from(refusal.number()));
    let expected = plan.as_ref().map_err(|&refusal| refusal).and_then(expected);
    for (name, side) in SIDES {
        for track in (0..MAX_TRACKS as u16 + 2).chain([65_535]) {
            let answer = figures(side, bytes, Call::Largest(track));
            let (plan, wanted) = match (&plan, &expected) {
                (Ok(plan), Ok(figures)) => (plan, figures.get(usize::from(track))),
                (_, Err(refusal)) | (Err(refusal), _) => {
                    let step = figures(side, bytes, Call::LargestStep(track, 0));
                    assert_eq!((answer, step), (Err(*refusal), Err(*refusal)), "{name}");
                    continue;
                }
            };
            let (figure, length) = answer.expect("an accepted plan");
            let path = path(bytes, (name, side), track, length);
            match wanted {
                Some(&wanted) => {
                    let found = (figure, along(plan, usize::from(track), &path));
                    assert_eq!(found, (wanted, wanted), "{name}, track {track}");
                }
                None => assert_eq!((figure, length), (0, 0), "{name}, track {track}"),
            }
        }
    }
    expected
}

/// The plan without deviations, and without the transitions that go against an
/// order of the states, which is any.
fn bounded(rng: &mut Rng, mut records: Records) -> Records {
    let mut rank: Vec<usize> = (0..records.states.len()).collect();
    rng.shuffle(&mut rank);
    let rank = |state: u16| rank[usize::from(state)];
    records.windows.clear();
    let steps = &mut records.transitions;
    steps.retain(|x| rank(x.source) < rank(x.destination));
    for transition in steps {
        transition.deviation = NONE;
    }
    records
}

/// A root of so many states in a row, with two steps between neighbours.
fn row(states: u16, code: impl Fn(u16) -> u16) -> Records {
    let gaps = states - 1;
    let place = |n: u16| (n % gaps, 1 + n / gaps);
    let steps = (0..2 * gaps).map(|n| (place(n), code(n)));
    Records {
        tracks: vec![track(NONE)],
        states: (0..states).map(|_| state(0, 0, 0)).collect(),
        transitions: steps.map(|((s, e), c)| step(s, e, c, s + 1)).collect(),
        windows: vec![],
        rights: every_right(&[0]),
    }
}

#[test]
fn of_the_sample() {
    assert_eq!(ask(&sample_records().encode()), Ok(vec![2, 1, 2]));
}

#[test]
fn of_a_step_to_itself() {
    assert_eq!(ask(&looping().encode()), Err(29));
}

/// 128 states in a row: 127 entries, though a track can hold 32. The last step
/// leading back makes a cycle of them all.
#[test]
fn of_the_deepest_plan() {
    assert_eq!(ask(&row(128, |_| 7).encode()), Ok(vec![127]));
    assert_eq!(ask(&row(128, |_| 0).encode()), Ok(vec![0]));
    assert_eq!(ask(&row(128, |n| n % 2).encode()), Ok(vec![127]));
    assert_eq!(ask(&row(128, |n| u16::from(n < 33)).encode()), Ok(vec![33]));
    let mut closed = row(128, |_| 7);
    closed.transitions[253].destination = 0;
    assert_eq!(ask(&closed.encode()), Err(29));
}

/// Plans of any kind without a cycle; hosted tracks and replacements among them.
#[test]
fn of_plans_without_a_cycle() {
    let (mut positive, mut greatest) = (0, 0);
    for index in 0..4_000 {
        let mut rng = Rng::for_case(34, 1, index);
        let records = plans::records(&mut rng, MAX_TRACKS);
        let records = bounded(&mut rng, records);
        let figures = ask(&records.encode()).expect("no cycle and no deviation");
        positive += figures.iter().filter(|&&figure| figure > 1).count();
        greatest = greatest.max(figures.into_iter().max().unwrap_or(0));
    }
    assert!(positive >= 1_000 && greatest >= 5, "{positive} {greatest}");
}

/// Rows with steps from any state to any later one, in any order.
#[test]
fn of_deep_plans() {
    let mut greatest = 0;
    for index in 0..300 {
        let mut rng = Rng::for_case(34, 2, index);
        let states = rng.between(2, 128) as u16;
        let mut records = row(states, |_| 0);
        let steps = rng.between(1, 256) as u16;
        let any = (0..steps).map(|n| {
            let source = rng.below(usize::from(states) - 1) as u16;
            let ahead = 1 + rng.below(usize::from(states - 1 - source).min(3)) as u16;
            step(source, 1 + n, 7 * rng.below(2) as u16, source + ahead)
        });
        records.transitions = any.collect();
        let figures = ask(&records.encode()).expect("no cycle");
        greatest = greatest.max(figures[0]);
    }
    assert!(greatest >= 15, "{greatest}");
}

/// Plans of any kind: most have a deviation or a cycle.
#[test]
fn of_any_plans() {
    let mut refused = 0;
    for index in 0..2_000 {
        let mut rng = Rng::for_case(34, 3, index);
        let records = plans::records(&mut rng, MAX_TRACKS);
        refused += usize::from(ask(&records.encode()) == Err(29));
    }
    assert!((500..1_990).contains(&refused), "{refused}");
}

/// Each refusal of a plan comes before 29.
#[test]
fn of_damaged_plans() {
    let mut refused = [0; 30];
    for index in 0..4_000 {
        let mut rng = Rng::for_case(34, 4, index);
        let bytes = damage::any_plan(&mut rng, MAX_TRACKS);
        let refusal = ask(&bytes).err().unwrap_or(0);
        refused[usize::from(refusal)] += 1;
    }
    for number in (2..=16).chain([25, 27, 29]) {
        assert!(refused[number] >= 10, "{number}: {}", refused[number]);
    }
}
