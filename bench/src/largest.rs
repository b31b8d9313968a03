//! Times of the calls on the largest number of entries, by each side, of every
//! track in turn.

use retraction::Limit;

use crate::calls::{times, LARGEST, LARGEST_STEP, LEDGERS};
use crate::cases::Case;
use crate::rounds::Rounds;

/// The table of all plans that are not refused, and of one that is.
pub fn print(rounds: &mut Rounds, cases: &[Case]) {
    println!("## The largest number of entries\n");
    println!(
        "| Plan | Call | Proved, ns | Second, ns | Fast, ns | Proved to second | Proved to fast |"
    );
    println!("|---|---|---:|---:|---:|---:|---:|");
    for case in cases.iter().filter(|case| !case.is_unbounded()) {
        print_rows(rounds, case);
    }
    for case in &Case::rows() {
        print_rows(rounds, case);
    }
}

/// The rows of a plan: both calls, or one where it is refused.
fn print_rows(rounds: &mut Rounds, case: &Case) {
    if case.is_unbounded() {
        return print_row(rounds, case, LARGEST, "largest, refused as 29");
    }
    for call in [LARGEST, LARGEST_STEP] {
        print_row(rounds, case, call, call);
    }
}

fn print_row(rounds: &mut Rounds, case: &Case, call: &str, name: &str) {
    let given = case.given(call, LEDGERS, Limit::default());
    let [proved, second, fast] = times(rounds, &case.plan, &given);
    let (label, to_second, to_fast) = (case.label(), proved / second, proved / fast);
    println!(
        "| {label} | {name} | {proved:.0} | {second:.0} | {fast:.0} | {to_second:.2} | \
        {to_fast:.2} |"
    );
}
