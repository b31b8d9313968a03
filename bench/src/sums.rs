//! Times of the sum of a plan's bytes alone, by each side on the same bytes.

use std::time::Instant;

use bench::sum::{self, Side};
use second::journal::MAX_BYTES;
use testing::generate::rng::Rng;

use crate::calls::ROUNDS;
use crate::cases::Case;
use crate::rounds::Rounds;

/// Sums of a round.
const SUMS: usize = 64;

const SIDES: [Side; 4] = [sum::before, sum::proved, sum::second, sum::fast];

/// Nanoseconds a sum, and all of them added up.
fn round(bytes: &[u8], side: Side) -> (f64, u64) {
    let mut total = 0;
    let start = Instant::now();
    for _ in 0..SUMS {
        total += u64::from(side(bytes));
    }
    (start.elapsed().as_nanos() as f64 / SUMS as f64, total)
}

/// Plan P, the largest plan, and as many bytes as a file may have.
///
/// # Panics
/// If there is no such plan.
fn timed(cases: &[Case]) -> [Vec<u8>; 3] {
    let named = |name| cases.iter().find(|case| case.name == name);
    let plan = |name| named(name).expect("a plan of this name").plan.clone();
    let mut rng = Rng::new(7);
    let longest = (0..MAX_BYTES).map(|_| rng.draw() as u8).collect();
    [plan("P"), plan("largest"), longest]
}

/// The table of all sizes.
///
/// # Panics
/// If the sides give different sums.
pub fn print(rounds: &mut Rounds, cases: &[Case]) {
    println!("## The sum alone\n");
    println!(
        "| Bytes | Before, ns | Proved, ns | Second, ns | Fast, ns | Proved to before | \
        Proved to second | Proved to fast |"
    );
    println!("|---:|---:|---:|---:|---:|---:|---:|---:|");
    for bytes in timed(cases) {
        let expected = round(&bytes, sum::second).1;
        let [before, proved, second, fast] = rounds.medians(ROUNDS, |number| {
            let (time, total) = round(&bytes, SIDES[number]);
            assert_eq!(total, expected, "the sides give different sums");
            time
        });
        let [to_before, to_second, to_fast] = [before, second, fast].map(|other| proved / other);
        let length = bytes.len();
        println!(
            "| {length} | {before:.1} | {proved:.1} | {second:.1} | {fast:.1} | {to_before:.2} | \
            {to_second:.2} | {to_fast:.2} |"
        );
    }
}
