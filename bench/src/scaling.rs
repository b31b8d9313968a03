//! Tables in which one thing grows and all else stays, so that the growth of
//! each call shows. Every ledger is at the main program's limit.

use bench::sides::{Call, SIDES};
use retraction::Limit;
use second::ledger::{Entry, Ledger, Mode, Track};
use second::limit;
use second::plan::{self, Plan, Records, NONE};
use second::rules;
use testing::samples::SOCIETY;

use crate::calls::{self, Given, CALLS, FINISHING, LARGEST, LARGEST_STEP};
use crate::cases::finishes;
use crate::rounds::Rounds;
use crate::shapes::{self, Order};

/// What grows, with rows of points.
struct Table {
    what: &'static str,
    /// One more of it.
    unit: &'static str,
    sizes: Vec<usize>,
    rows: Vec<Row>,
}

/// A call on a plan of each size.
struct Row {
    name: String,
    points: Vec<(Vec<u8>, Given)>,
}

/// Prints all tables.
pub fn print(rounds: &mut Rounds) {
    println!("## Growth\n\nNanoseconds a call, by the size named in the heading of the column.");
    for table in [
        tracks(),
        states(),
        transitions(),
        steps(),
        windows(),
        rights(),
        entries(),
        largest(),
    ] {
        table.print(rounds);
    }
}

impl Table {
    fn print(&self, rounds: &mut Rounds) {
        self.print_heading();
        for row in &self.rows {
            let times: Vec<[f64; 3]> = (row.points.iter())
                .map(|(plan, given)| calls::times(rounds, plan, std::slice::from_ref(given)))
                .collect();
            for (number, (side, _)) in SIDES.iter().enumerate() {
                let times: Vec<f64> = times.iter().map(|sides| sides[number]).collect();
                println!("| {} | {side} | {} |", row.name, self.cells(&times));
            }
        }
    }

    fn print_heading(&self) {
        let sizes: Vec<String> = self.sizes.iter().map(usize::to_string).collect();
        let (low, [middle, high]) = (&sizes[0], self.upper().map(|place| &sizes[place]));
        let (what, unit, columns) = (self.what, self.unit, sizes.join(" | "));
        println!("\n### {what}\n");
        println!("| Call | By | {columns} | ns {unit}, {low} to {middle} | {middle} to {high} |");
        println!("|---|---|{}", "---:|".repeat(sizes.len() + 2));
    }

    /// The times, and nanoseconds for one more of what grows: up to the last
    /// size but one, and from there on.
    fn cells(&self, times: &[f64]) -> String {
        let each = |from: usize, to: usize| {
            let time = (times[to] - times[from]) / (self.sizes[to] - self.sizes[from]) as f64;
            format!("{time:.1}")
        };
        let [middle, high] = self.upper();
        let mut cells: Vec<String> = times.iter().map(|time| format!("{time:.0}")).collect();
        cells.extend([each(0, middle), each(middle, high)]);
        cells.join(" | ")
    }

    /// The last two places.
    fn upper(&self) -> [usize; 2] {
        let high = self.sizes.len() - 1;
        [high - 1, high]
    }
}

/// Rows of all calls on plans of growing size, after so many events 1.
fn rows(plans: &[(Records, usize)]) -> Vec<Row> {
    let point = |name: &str, (records, events): &(Records, usize)| {
        let bytes = records.encode();
        let plan = plan::read(&bytes).expect("accepted");
        let given = given(name, &plan, *events);
        (bytes, given)
    };
    let row = |name: &&str| Row {
        name: name.to_string(),
        points: plans.iter().map(|plan| point(name, plan)).collect(),
    };
    CALLS.iter().map(row).collect()
}

/// A ledger after so many events 1 of one society, undoing for a firing, and its
/// call on it.
fn given(name: &str, plan: &Plan, events: usize) -> Given {
    let mut ledger = rules::begin(limit::Limit::MAIN, plan);
    for _ in 0..events {
        let moved = rules::event(plan, &mut ledger, 1, 0, SOCIETY).map(|figures| figures.moved);
        assert!(moved != Ok(0), "an event that moves");
    }
    let call = match name {
        "begin" => Call::Begin,
        "event" => Call::Event(1, 0, SOCIETY),
        "signal" => Call::Signal(SOCIETY),
        "fire" => {
            rules::signal(plan, &mut ledger, SOCIETY).expect("not over");
            Call::Fire(lowest_ready(plan, &ledger), SOCIETY)
        }
        "ready" => Call::Ready,
        _ => Call::Entries(last_holding(&ledger)),
    };
    Given::main(ledger.words(), call)
}

/// The last track that holds something.
fn last_holding(ledger: &Ledger) -> u16 {
    let held = ledger.tracks.iter().rposition(|track| track.held() > 0);
    held.expect("an entry") as u16
}

fn lowest_ready(plan: &Plan, ledger: &Ledger) -> u16 {
    rules::ready(plan, ledger).trailing_zeros() as u16
}

fn tracks() -> Table {
    let sizes = vec![1, 2, 4, 8, 16, 32];
    let plan = |&tracks: &usize| (shapes::tree(tracks, 128, 256), 2);
    let rows = rows(&sizes.iter().map(plan).collect::<Vec<_>>());
    Table {
        what: "Tracks, a tree of them; 128 states, 256 transitions",
        unit: "a track",
        sizes,
        rows,
    }
}

fn states() -> Table {
    let sizes = vec![16, 32, 64, 128];
    let plan = |&states: &usize| (shapes::tree(4, states, 24), 2);
    let rows = rows(&sizes.iter().map(plan).collect::<Vec<_>>());
    Table {
        what: "States; 4 tracks, 24 transitions",
        unit: "a state",
        sizes,
        rows,
    }
}

fn transitions() -> Table {
    let sizes = vec![8, 16, 32, 64, 128, 256];
    let plan = |&transitions: &usize| (shapes::tree(1, 128, transitions), 2);
    let rows = rows(&sizes.iter().map(plan).collect::<Vec<_>>());
    Table {
        what: "Transitions, of many states; 1 track, 128 states",
        unit: "a transition",
        sizes,
        rows,
    }
}

/// All calls with the steps in the order of their events; begin and event in
/// other orders, and begin where the last step repeats the first one's event.
fn steps() -> Table {
    let sizes = vec![8, 16, 32, 64, 128, 256];
    let plans = |order: Order| -> Vec<(Records, usize)> {
        let plan = |&steps: &usize| (shapes::fan(steps, order), 2);
        sizes.iter().map(plan).collect()
    };
    let mut all = rows(&plans(Order::Rising));
    for (order, name) in [(Order::Falling, "falling"), (Order::Shuffled, "shuffled")] {
        for mut row in rows(&plans(order)).into_iter().take(2) {
            row.name = format!("{}, {name}", row.name);
            all.push(row);
        }
    }
    for (order, name) in Order::ALL {
        all.push(refused(&plans(order), name));
    }
    Table {
        what: "Steps out of one state, their events rising unless said; 1 track, 2 states",
        unit: "a step",
        sizes,
        rows: all,
    }
}

/// Begin on plans whose last step repeats the first one's event.
fn refused(plans: &[(Records, usize)], order: &str) -> Row {
    let point = |(records, _): &(Records, usize)| {
        let mut records = records.clone();
        let event = records.transitions[0].event;
        if let Some(last) = records.transitions.last_mut() {
            last.event = event;
        }
        let words = vec![0; Limit::Main.ledger_words(records.tracks.len())];
        (records.encode(), Given::main(words, Call::Begin))
    };
    Row {
        name: format!("begin, {order}, refused as 15"),
        points: plans.iter().map(point).collect(),
    }
}

/// All calls, and begin where the last window repeats the first one's
/// transition.
fn windows() -> Table {
    let sizes = vec![8, 16, 32, 64, 128, 256];
    let plan = |&windows: &usize| (shapes::windowed(shapes::roots(32, 128, 256), windows), 2);
    let plans: Vec<_> = sizes.iter().map(plan).collect();
    let mut rows = rows(&plans);
    rows.push(repeated(&plans));
    Table {
        what: "Windows, in any order; 32 tracks, all roots, 128 states, 256 transitions",
        unit: "a window",
        sizes,
        rows,
    }
}

/// Begin on plans whose last window repeats the first one's transition.
fn repeated(plans: &[(Records, usize)]) -> Row {
    let point = |(records, _): &(Records, usize)| {
        let mut records = records.clone();
        let transition = records.windows[0].transition;
        if let Some(last) = records.windows.last_mut() {
            last.transition = transition;
        }
        let words = vec![0; Limit::Main.ledger_words(records.tracks.len())];
        (records.encode(), Given::main(words, Call::Begin))
    };
    Row {
        name: "begin, refused as 25".to_string(),
        points: plans.iter().map(point).collect(),
    }
}

/// All calls of one society, and begin where the last record repeats the first
/// one's pair.
fn rights() -> Table {
    let sizes = vec![8, 16, 32, 64];
    let plan = |&records: &usize| (shapes::shared(shapes::roots(32, 128, 256), records), 2);
    let plans: Vec<_> = sizes.iter().map(plan).collect();
    let mut rows = rows(&plans);
    rows.push(repeated_pair(&plans));
    Table {
        what: "Rights records, in any order; 32 tracks, all roots, 128 states, 256 transitions",
        unit: "a record",
        sizes,
        rows,
    }
}

/// Begin on plans whose last rights record repeats the first one's pair.
fn repeated_pair(plans: &[(Records, usize)]) -> Row {
    let point = |(records, _): &(Records, usize)| {
        let mut records = records.clone();
        let first = records.rights[0];
        if let Some(last) = records.rights.last_mut() {
            *last = first;
        }
        let words = vec![0; Limit::Main.ledger_words(records.tracks.len())];
        (records.encode(), Given::main(words, Call::Begin))
    };
    Row {
        name: "begin, refused as 27".to_string(),
        points: plans.iter().map(point).collect(),
    }
}

fn entries() -> Table {
    let events = [1, 2, 4, 8, 16, 31];
    let plan = |&events: &usize| (shapes::roots(32, 128, 256), events);
    let plans: Vec<_> = events.iter().map(plan).collect();
    let mut rows = rows(&plans);
    rows.push(finishing(&plans));
    Table {
        what: "Entries held; 32 tracks, all roots, 128 states, 256 transitions",
        unit: "an entry",
        sizes: events.map(|held| 32 * held).to_vec(),
        rows,
    }
}

/// Firings that end the link, on plans of roots alone. As many entries are held
/// as so many events 1 leave: one by the last root, which is undoing, and all
/// others by the other roots, which have ended.
fn finishing(plans: &[(Records, usize)]) -> Row {
    let point = |(records, events): &(Records, usize)| {
        let bytes = records.encode();
        let plan = plan::read(&bytes).expect("accepted");
        let last = plan.track_count() - 1;
        let entry = Entry {
            code: 7,
            deviation: NONE,
        };
        let mut ledger = Ledger::asleep(limit::Limit::MAIN, &plan);
        for root in 0..last {
            let end = plan.states_of(root).last().expect("a state");
            ledger.tracks[root] = Track::awake(Mode::Forward, end);
        }
        ledger.tracks[last] = Track::awake(Mode::Undoing, plan.first_state(last));
        ledger.tracks[last].install(entry);
        for number in 1..plan.track_count() * events {
            ledger.tracks[number % last].install(entry);
        }
        let ends = finishes(&plan, &ledger, last as u16, SOCIETY);
        assert!(ends, "a firing that ends");
        let call = Call::Fire(last as u16, SOCIETY);
        (bytes, Given::main(ledger.words(), call))
    };
    Row {
        name: FINISHING.to_string(),
        points: plans.iter().map(point).collect(),
    }
}

/// The calls on the largest number of entries, which are lent no ledger: of a
/// root whose states stand in a row, and of one with a fan of steps. The paths
/// through the row double with every state that has two ways on.
fn largest() -> Table {
    let sizes = vec![8, 16, 32, 64, 128, 256];
    let row = |states: usize, name: &str, call: Call| Row {
        name: name.to_string(),
        points: (sizes.iter())
            .map(|&transitions| {
                let plan = shapes::rows(1, states, transitions);
                (plan.encode(), Given::main(Vec::new(), call))
            })
            .collect(),
    };
    let rows = vec![
        row(128, LARGEST, Call::Largest(0)),
        row(128, LARGEST_STEP, Call::LargestStep(0, 0)),
        row(2, "largest, out of one state", Call::Largest(0)),
    ];
    Table {
        what: "Transitions without a cycle; 1 track, 128 states in a row, or 2",
        unit: "a transition",
        sizes,
        rows,
    }
}
