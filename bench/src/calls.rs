//! Times of single calls, by each side on the same ledgers.

use std::time::Instant;

use bench::sides::{self, Call, Side, SIDES};
use retraction::Limit;

use crate::cases::Case;
use crate::rounds::Rounds;

/// Rounds of each side.
pub const ROUNDS: usize = 201;

/// Ledgers of a round, each called on once.
pub const LEDGERS: usize = 32;

/// A ledger and the call on it, at a limit.
#[derive(Clone, Debug)]
pub struct Given {
    pub words: Vec<u16>,
    pub call: Call,
    pub limit: Limit,
}

impl Given {
    /// A ledger at the main program's limit, or none, and the call on it.
    pub fn main(words: Vec<u16>, call: Call) -> Given {
        let limit = Limit::Main;
        Given { words, call, limit }
    }
}

/// Nanoseconds a call over copies of the ledgers, made beforehand, and the sum
/// of what the sides agree on in the answers.
fn round(plan: &[u8], given: &[Given], side: Side) -> (f64, u64) {
    let mut copies: Vec<Given> = given.iter().cycle().take(LEDGERS).cloned().collect();
    let mut sum = 0u64;
    let start = Instant::now();
    for copy in &mut copies {
        let answer = side(plan, &mut copy.words, copy.call, copy.limit);
        sum = sum.wrapping_add(sides::agreed(copy.call, answer));
    }
    (start.elapsed().as_nanos() as f64 / LEDGERS as f64, sum)
}

/// The medians of the sides, in nanoseconds.
///
/// # Panics
/// If the sides give different answers.
pub fn times(rounds: &mut Rounds, plan: &[u8], given: &[Given]) -> [f64; 3] {
    let expected = round(plan, given, sides::second).1;
    rounds.medians(ROUNDS, |number| {
        let (time, sum) = round(plan, given, SIDES[number].1);
        assert_eq!(sum, expected, "the sides give different answers");
        time
    })
}

/// The table of all plans and calls at the main program's limit; and a shorter
/// one at the reading rooms', without the calls that end a link, which few plans
/// have.
pub fn print(rounds: &mut Rounds, cases: &[Case]) {
    println!("## Calls\n");
    let all: Vec<&str> = [&CALLS[..], &[FINISHING, LAST_SIGNAL]].concat();
    print_table(rounds, cases, &all, Limit::Main);
    println!("\n## Calls at limit {}\n", Limit::ReadingRoom.entries());
    print_table(rounds, cases, &CALLS, Limit::ReadingRoom);
}

/// The rows of these calls on all plans at a limit.
fn print_table(rounds: &mut Rounds, cases: &[Case], calls: &[&str], limit: Limit) {
    println!(
        "| Plan | Call | Proved, ns | Second, ns | Fast, ns | Proved to second | Proved to fast |"
    );
    println!("|---|---|---:|---:|---:|---:|---:|");
    for case in cases {
        for name in calls {
            print_row(rounds, case, name, limit);
        }
    }
}

/// The row of a call, where the plan's histories have it.
fn print_row(rounds: &mut Rounds, case: &Case, name: &str, limit: Limit) {
    let given = case.given(name, LEDGERS, limit);
    if given.is_empty() {
        return;
    }
    let [proved, second, fast] = times(rounds, &case.plan, &given);
    let (label, to_second, to_fast) = (case.label(), proved / second, proved / fast);
    println!(
        "| {label} | {name} | {proved:.0} | {second:.0} | {fast:.0} | {to_second:.2} | \
        {to_fast:.2} |"
    );
}

/// The names of the calls timed.
pub const CALLS: [&str; 6] = ["begin", "event", "signal", "fire", "ready", "entries"];

/// The name of a firing that ends a link half withdrawn, which few plans have.
pub const FINISHING: &str = "fire, finishing";

/// The name of a signal that does, which only plans of several societies have.
pub const LAST_SIGNAL: &str = "signal, finishing";

/// The names of the calls on the largest number of entries, which are lent no
/// ledger and have a table of their own.
pub const LARGEST: &str = "largest";
pub const LARGEST_STEP: &str = "largest step";

/// One round of the proved calls alone.
pub fn one(cases: &[Case], plan: &str, call: &str, limit: Limit) {
    for case in cases.iter().filter(|case| case.name == plan) {
        let given = case.given(call, LEDGERS, limit);
        round(&case.plan, &given, sides::proved);
    }
}
